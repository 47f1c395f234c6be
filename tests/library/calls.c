/* Calls of the library from C.
 *     calls              every function: what its document shows, empty slices, too little room; says 'as expected'
 *     calls run|trace    the text of standard input, its listing or trace to standard output; the status is its number
 */
#include <stdio.h>
#include <string.h>

#include "besklaun.h"

#define BEFORE 0xa5

static uint8_t text[20000];
static uint8_t lent[65536];
static uint8_t words[BESKLAUN_MESSAGE_ROOM];
static int wrong;

static void expect(bool holds, const char *what)
{
    if (!holds) {
        printf("calls: not so: %s\n", what);
        wrong = 1;
    }
}

/* The log that docs/JUDGE.md shows, of two processes and one word that begins with 5. */
static const uint64_t value[] = {5};
static const uint64_t shown[] = {
    0, 1, 1024, 11264, 0, 3072, 5,
    0, 2, 12288, 18432, 1, 18432, 7,
    1, 1, 19456, 29696, 0, 21504, 7,
    0, 3, 30720, 31744, 0, 31744, 0,
};

static bool judged(struct besklaun_judgement said, unsigned number, bool yes)
{
    return said.number == number && said.yes == yes;
}

static void logs(void)
{
    uint64_t log[28];
    expect(judged(besklaun_judge(2, 1, value, 1, shown, 28), 0, true), "the log of docs/JUDGE.md earns a yes");
    memcpy(log, shown, sizeof log);
    log[20] = 5;
    expect(judged(besklaun_judge(2, 1, value, 1, log, 28), 0, false), "an old value gets a no");
    expect(judged(besklaun_judge(0, 1, value, 1, shown, 28), 1, false), "no process is 1");
    expect(judged(besklaun_judge(2, SIZE_MAX, value, 1, shown, 28), 2, false), "too many words are 2");
    expect(judged(besklaun_judge(1, 1, value, 1, shown, 28), 4, false), "an unknown process is 4");
    expect(judged(besklaun_judge(2, 1, value, 1, shown, 27), 8, false), "a call that is cut off is 8");
    log[17] = log[16];
    expect(judged(besklaun_judge(2, 1, value, 1, log, 28), 17, false), "an answer at its start is 17");
    expect(judged(besklaun_judge(2, 1, value, 1, NULL, 0), 0, true), "a log without calls earns a yes");
    expect(judged(besklaun_judge(2, 1, NULL, 0, NULL, 0), 8, false), "no value is 8");
}

static bool told(struct besklaun_reasoned said, unsigned condition, size_t call, size_t other, bool given, bool truth)
{
    return said.condition == condition && said.call == call && said.other == other && said.given == given
           && said.truth == truth && (condition == 0 || (said.number == 0 && !said.yes));
}

static void reasons(void)
{
    uint64_t log[28];
    struct besklaun_reasoned said = besklaun_judge_with_reason(2, 1, value, 1, shown, 28);
    expect(told(said, 0, 0, 0, false, false) && said.yes && said.number == 0, "a yes has no reason");
    memcpy(log, shown, sizeof log);
    log[20] = 5;
    said = besklaun_judge_with_reason(2, 1, value, 1, log, 28);
    expect(told(said, 5, 2, 1, false, false), "call 2 should have shown the words of call 1");
    log[6] = 6;
    said = besklaun_judge_with_reason(2, 1, value, 1, log, 28);
    expect(told(said, 5, 0, 0, true, false), "call 0 comes first and should have shown the value");
    log[12] = log[9];
    log[19] = log[9];
    said = besklaun_judge_with_reason(2, 1, value, 1, log, 28);
    expect(told(said, 3, 1, 2, false, false), "calls 1 and 2 have one moment");
    said = besklaun_judge_with_reason(1, 1, value, 1, shown, 28);
    expect(told(said, 0, 2, 0, false, false) && said.number == 4, "the process of call 2 is unknown");
    said = besklaun_judge_with_reason(2, 1, value, 1, shown, 27);
    expect(told(said, 0, 3, 0, false, false) && said.number == 8, "call 3 is cut off");
    said = besklaun_judge_with_reason(2, 1, NULL, 0, NULL, 0);
    expect(told(said, 0, 0, 0, true, false) && said.number == 8, "the value is not there");
}

static bool ran(struct besklaun_text_run run, unsigned number, size_t entries, size_t written)
{
    return run.number == number && run.entries == entries && run.written == written;
}

/* every byte lent is still what it was, from this one on */
static bool stays(size_t from)
{
    for (size_t at = from; at < sizeof lent; at++) {
        if (lent[at] != BEFORE) {
            return false;
        }
    }
    return true;
}

static void texts(void)
{
    static const uint8_t empty[] = "2 1 5\n";
    memset(lent, BEFORE, sizeof lent);
    expect(ran(besklaun_run_text(empty, 6, NULL, 0), 14, 0, 0), "no listing at all is 14");
    expect(ran(besklaun_trace_text(empty, 6, NULL, 0), 14, 0, 0), "no trace at all is 14");
    expect(ran(besklaun_run_text(NULL, 0, NULL, 0), 14, 0, 0), "no text and no listing is 14");
    expect(ran(besklaun_run_text(empty, 6, lent, 743), 14, 0, 0), "743 bytes are too few for a listing");
    expect(ran(besklaun_trace_text(empty, 6, lent, 871), 14, 0, 0), "871 bytes are too few for a trace");
    expect(stays(0), "a refusal with 14 writes nothing");
    expect(ran(besklaun_run_text(empty, 6, lent, 744), 0, 0, 6), "744 bytes are enough for a listing");
    expect(memcmp(lent, "end 0\n", 6) == 0 && stays(6), "the listing of no entries");
    expect(ran(besklaun_trace_text(empty, 6, lent, 872), 0, 0, 6), "872 bytes are enough for a trace");
    expect(memcmp(lent, "end 0\n", 6) == 0 && stays(6), "the trace of no entries");
    expect(ran(besklaun_run_text(NULL, 0, lent, 744), 10, 0, 13), "no text is 10");
    expect(memcmp(lent, "refused 10 0\n", 13) == 0 && stays(13), "the listing of no text");
}

static bool stopped(struct besklaun_text_stop stop, unsigned kind, size_t place, uint64_t n, uint64_t process)
{
    return stop.kind == kind && stop.place == place && stop.n == n && stop.w == (n == 0 ? 0 : 1) && stop.process == process;
}

/* Places by hand: the bytes of the texts are counted. */
static void reports(void)
{
    static const uint8_t right[] = "2 1 5\n0l 0!\n";
    static const uint8_t wrong[] = "2 1 5\n0l 0! 0q\n";
    static const uint8_t idle[] = "2 1 5\n0l 0! 3(0s7 0! 0.)\n";
    static const uint8_t none[] = "2 1 5\n0l 0! 700l\n";
    static const uint8_t many[] = "17 1 5\n0l\n";
    struct besklaun_reported_run said = besklaun_run_text_with_report(right, sizeof right - 1, lent, 743);
    expect(ran(said.run, 14, 0, 0) && stopped(said.stop, BESKLAUN_STOP_NOT_READ, 0, 0, 0), "14 looks at no text");
    said = besklaun_run_text_with_report(NULL, 0, lent, 744);
    expect(said.run.number == 10 && stopped(said.stop, BESKLAUN_STOP_AT_FAULT, 0, 0, 0), "no text stops at its end");
    said = besklaun_run_text_with_report(wrong, sizeof wrong - 1, lent, sizeof lent);
    expect(said.run.number == 10 && stopped(said.stop, BESKLAUN_STOP_AT_FAULT, 13, 0, 0), "the fault is the q");
    said = besklaun_run_text_with_report(right, sizeof right - 1, lent, sizeof lent);
    expect(said.run.number == 0 && stopped(said.stop, BESKLAUN_STOP_NO_ITEM, 0, 2, 0), "an end is at no item");
    said = besklaun_trace_text_with_report(many, sizeof many - 1, lent, sizeof lent);
    expect(said.run.number == 1 && stopped(said.stop, BESKLAUN_STOP_NO_ITEM, 0, 17, 0), "1 is at no item");
    said = besklaun_run_text_with_report(idle, sizeof idle - 1, lent, sizeof lent);
    expect(said.run.number == 6 && stopped(said.stop, BESKLAUN_STOP_AT_ITEM, 21, 2, 0), "the refused item of a group");
    said = besklaun_trace_text_with_report(none, sizeof none - 1, lent, sizeof lent);
    expect(said.run.number == 4 && stopped(said.stop, BESKLAUN_STOP_AT_ITEM, 12, 2, 16), "a process above 15 is told as 16");
}

static bool tells(struct besklaun_explained_run said, const char *message)
{
    return said.whole && said.told == strlen(message) && memcmp(words, message, said.told) == 0
           && words[said.told] == BEFORE;
}

/* The words are those of ./schedule, by docs/NOTATION.md and by hand. */
static void messages(void)
{
    static const uint8_t right[] = "2 1 5\n0l 0!\n";
    static const uint8_t idle[] = "2 1 5\n0l 0! 1l 2(1.) 0.\n";
    static const uint8_t begun[] = "2 1 5\n1l\n";
    static const char refused[] = "refused 6: entry 15, item 0. at 2:16: process 0 is idle\n"
                                  "open: process 1, LL, line 3 of Figure 2, word 0 of 1, low half next, 2 own steps so far\n";
    memset(words, BEFORE, sizeof words);
    struct besklaun_explained_run said = besklaun_explain_text(right, sizeof right - 1, lent, sizeof lent, words, 0);
    expect(ran(said.run, 0, 11, 16) && said.whole && said.told == 0, "an end with no open call says nothing");
    said = besklaun_explain_text(begun, sizeof begun - 1, lent, sizeof lent, words, sizeof words);
    expect(ran(said.run, 0, 1, 6) && tells(said, "open: process 1, LL, line 1 of Figure 2 next, 0 own steps so far\n"),
           "an open call is told");
    memset(words, BEFORE, sizeof words);
    said = besklaun_explain_text(idle, sizeof idle - 1, lent, sizeof lent, words, sizeof words);
    expect(said.run.number == 6 && said.run.entries == 14 && tells(said, refused), "a refusal and an open call");
    expect(stopped(said.stop, BESKLAUN_STOP_AT_ITEM, 21, 2, 0), "and where it stopped");
    memset(words, BEFORE, sizeof words);
    said = besklaun_explain_trace(idle, sizeof idle - 1, lent, sizeof lent, words, sizeof refused - 1);
    expect(said.run.number == 6 && tells(said, refused), "the same of a trace, in room for just that");
    memset(words, BEFORE, sizeof words);
    said = besklaun_explain_text(idle, sizeof idle - 1, lent, sizeof lent, words, 9);
    expect(said.run.number == 6 && !said.whole && said.told == 9 && memcmp(words, "refused 6", 9) == 0
               && words[9] == BEFORE,
           "nine bytes of it");
    said = besklaun_explain_text(idle, sizeof idle - 1, lent, sizeof lent, NULL, 0);
    expect(said.run.number == 6 && !said.whole && said.told == 0, "and no room for any");
    memset(words, BEFORE, sizeof words);
    said = besklaun_explain_text(right, sizeof right - 1, lent, 743, words, sizeof words);
    expect(ran(said.run, 14, 0, 0) && tells(said, "refused 14: there is too little room to write to\n"), "no listing");
}

/* The first two calls of examples/first-steps.txt on Moir's bench: 2W + 1 steps and 6W + 2 (examples/moir). */
static void moir_texts(void)
{
    static const uint8_t given[] = "2 1 5\n0l 0! 0s7 0!\n";
    static const char listing[] = "0 L 3 5\n0 S 8 1\nend 13\n";
    memset(lent, BEFORE, sizeof lent);
    expect(ran(besklaun_moir_run_text(given, 6, NULL, 0), 14, 0, 0), "Moir: no listing at all is 14");
    expect(ran(besklaun_moir_trace_text(given, 6, lent, 871), 14, 0, 0), "Moir: 871 bytes are too few for a trace");
    expect(stays(0), "Moir: a refusal with 14 writes nothing");
    expect(ran(besklaun_moir_trace_text(given, 6, lent, 872), 0, 0, 6), "Moir: the trace of no entries");
    expect(ran(besklaun_moir_run_text(given, sizeof given - 1, lent, sizeof lent), 0, 13, sizeof listing - 1), "Moir: a run");
    expect(memcmp(lent, listing, sizeof listing - 1) == 0 && stays(sizeof listing - 1), "Moir: its listing");
    memset(lent, BEFORE, sizeof lent);
    expect(ran(besklaun_moir_run_text(NULL, 0, lent, 744), 10, 0, 13), "Moir: no text is 10");
    expect(memcmp(lent, "refused 10 0\n", 13) == 0 && stays(13), "Moir: the listing of no text");
    struct besklaun_reported_run r = besklaun_moir_run_text_with_report(given, sizeof given - 1, lent, sizeof lent);
    expect(ran(r.run, 0, 13, sizeof listing - 1) && r.stop.kind == BESKLAUN_STOP_NO_ITEM && r.stop.n == 2, "Moir: its end");
    r = besklaun_moir_trace_text_with_report((const uint8_t *)"2 1 5\n0l 9l\n", 12, lent, sizeof lent);
    expect(r.run.number == 4 && r.run.entries == 1 && r.stop.kind == BESKLAUN_STOP_AT_ITEM && r.stop.place == 9
           && r.stop.process == 9, "Moir: stopped at 9l");
}

static void marks(void)
{
    static const uint8_t given[] = "2 1 5\n0l 1l 0. 1.\n";
    static uint8_t trace[2000];
    struct besklaun_text_run run = besklaun_trace_text(given, sizeof given - 1, trace, sizeof trace);
    memset(lent, BEFORE, sizeof lent);
    size_t count = besklaun_mark_trace(trace, run.written, lent, sizeof lent);
    expect(run.entries == 4 && count == run.written + 2 * 5 && stays(count), "five lines have two columns more");
    expect(memcmp(lent, "  1 0 ", 6) == 0, "the first line has no mark");
    expect(memcmp(lent + count - 8, "  end 4\n", 8) == 0, "nor has the last");
    size_t tildes = 0;
    for (size_t k = 0; k < count; k++)
        tildes += lent[k] == '~';
    expect(tildes == 3, "three commands could change places with those before");
    memset(lent, BEFORE, sizeof lent);
    expect(besklaun_mark_trace(trace, run.written, lent, 3) == count && stays(3), "room of three bytes");
    expect(besklaun_mark_trace(NULL, 0, NULL, 0) == 0, "the marks of no trace");
}

static bool part(struct besklaun_part said, unsigned number, bool written, size_t start, size_t count)
{
    return said.number == number && said.written == written && said.start == start && said.count == count;
}

static void views(void)
{
    static const uint64_t first[] = {1, 2}, written[] = {3, 4, 5, 6};
    expect(part(besklaun_view(2, first, 2, written, 4, 0), 0, false, 0, 2), "success 0 is the value");
    expect(part(besklaun_view(2, first, 2, written, 4, 1), 0, true, 0, 2), "success 1 is the list's first");
    expect(part(besklaun_view(2, first, 2, written, 4, 2), 0, true, 2, 2), "success 2 is its second");
    expect(part(besklaun_view(2, first, 2, written, 4, 3), 15, false, 0, 0), "there is no success 3");
    expect(part(besklaun_view(2, first, 2, NULL, 0, SIZE_MAX), 15, false, 0, 0), "nor any of no list but 0");
    expect(part(besklaun_view(2, first, 2, NULL, 0, 0), 0, false, 0, 2), "success 0 of no list");
    expect(part(besklaun_view(2, first, 2, written, 3, 0), 3, false, 0, 0), "a list of no whole values is 3");
    expect(part(besklaun_view(2, NULL, 0, written, 4, 0), 8, false, 0, 0), "no value is 8");
    expect(part(besklaun_view(SIZE_MAX, NULL, 0, NULL, 0, 0), 2, false, 0, 0), "too many words are 2");
}

static bool fraction(struct besklaun_fraction f, uint64_t over, uint64_t under)
{
    return f.over == over && f.under == under;
}

static bool taken(struct besklaun_added said, unsigned number, size_t at)
{
    return said.number == number && said.at == at;
}

static void seasons(void)
{
    static const uint8_t one[] = "0 L 10 5\n0 S 6 1\nend 18\n", two[] = "0 L 14 5\n0 S 6 0\nend 22\n";
    struct besklaun_sums season = besklaun_empty_sums(2, 1), copy;
    struct besklaun_fractions table = besklaun_fractions(&season);
    expect(table.number == 0 && fraction(table.rows[0].steps, 0, 0), "no listing has 0 over 0");
    expect(taken(besklaun_add_listing(&season, one, sizeof one - 1), 0, 0), "a listing");
    expect(taken(besklaun_add_listing(&season, two, sizeof two - 1), 0, 0), "and another");
    copy = season;
    expect(taken(besklaun_add_listing(&season, one, sizeof one - 2), 18, sizeof one - 2), "its last line feed is missing");
    expect(taken(besklaun_add_listing(&season, NULL, 0), 18, 0), "no bytes are 18");
    expect(memcmp(&copy, &season, sizeof copy) == 0, "what is not taken leaves the sums");
    table = besklaun_fractions(&season);
    expect(table.number == 0 && season.taken == 2, "two listings");
    expect(fraction(table.rows[0].successes, 1, 2) && fraction(table.rows[0].steps, 12, 1), "1 of 2 SCs, 24 steps of 2 LLs");
    expect(fraction(table.rows[1].successes, 0, 0) && fraction(table.rows[15].steps, 0, 0), "the others have 0 over 0");
    season.taken = 4096;
    expect(taken(besklaun_add_listing(&season, one, sizeof one - 1), 19, 0), "4,096 listings are enough");
    season.each[1].lls = UINT64_MAX;
    table = besklaun_fractions(&season);
    expect(table.number == 9 && fraction(table.rows[0].successes, 0, 0), "a sum that is too large is 9");
    season.n = 0;
    expect(besklaun_fractions(&season).number == 1, "no process is 1");
    season = besklaun_empty_sums(1, 65);
    expect(taken(besklaun_add_listing(&season, one, sizeof one - 1), 2, 0), "65 words are 2");
}

static bool found(struct besklaun_found_turns said, unsigned refusal, size_t count)
{
    return said.refusal == refusal && said.count == count;
}

static bool numbered(struct besklaun_turns_number said, unsigned refusal, uint64_t number)
{
    return said.refusal == refusal && said.number == number;
}

static bool followed(struct besklaun_turns_after said, unsigned refusal, bool last)
{
    return said.refusal == refusal && said.last == last;
}

/* C(64, 32), how many schedules have 32 and 32 turns */
#define MOST UINT64_C(1832624140942590534)

static void schedules(void)
{
    uint8_t turns[64];
    memset(lent, BEFORE, sizeof lent);
    expect(found(besklaun_schedule_for(2, 1, 1, lent, 3), 0, 3), "three turns in three bytes");
    expect(memcmp(lent, "\0\1\0", 3) == 0 && stays(3), "the second schedule of 2 and 1 turns is 010");
    expect(followed(besklaun_schedule_after(2, 1, lent, 3), 0, false), "010 has one after it");
    expect(memcmp(lent, "\1\0\0", 3) == 0 && stays(3), "after 010 comes 100");
    expect(numbered(besklaun_number_for(2, 1, lent, 3), 0, 2), "100 has number 2");
    expect(followed(besklaun_schedule_after(2, 1, lent, 3), 0, true), "100 is the last");
    expect(memcmp(lent, "\1\0\0", 3) == 0 && stays(3), "the last one stays");
    memset(lent, BEFORE, sizeof lent);
    expect(found(besklaun_schedule_for(2, 1, 1, lent, 2), 0, 3), "the count, where two bytes are lent");
    expect(found(besklaun_schedule_for(33, SIZE_MAX, 9, lent, 64), 20, 0), "33 turns are 20");
    expect(found(besklaun_schedule_for(2, 1, 3, lent, 64), 21, 0), "a number that is too large is 21");
    expect(found(besklaun_schedule_for(32, 32, MOST, lent, 64), 21, 0), "the largest count is 21");
    expect(followed(besklaun_schedule_after(1, 1, lent, 2), 22, false), "turns of other processes are 22");
    expect(stays(0), "too little room and a refusal write nothing");
    expect(found(besklaun_schedule_for(32, 32, MOST - 1, turns, 64), 0, 64), "the last of 32 and 32 turns");
    expect(turns[0] == 1 && turns[31] == 1 && turns[32] == 0 && turns[63] == 0, "process 1 first in the last one");
    expect(numbered(besklaun_number_for(32, 32, turns, 64), 0, MOST - 1), "its number");
    expect(numbered(besklaun_number_for(32, 32, turns, 63), 22, 0), "a turn too few is 22");
    expect(numbered(besklaun_number_for(33, 32, turns, 64), 20, 0), "33 turns are 20, whatever they are");
    expect(found(besklaun_schedule_for(0, 0, 0, NULL, 0), 0, 0), "no turns have one schedule");
    expect(numbered(besklaun_number_for(0, 0, NULL, 0), 0, 0), "its number is 0");
    expect(followed(besklaun_schedule_after(0, 0, NULL, 0), 0, true), "and it is the last");
}

/* Process 0 at ticks 1 and 3 in one file, process 1 at tick 3 after a free byte in the other, and their merge. */
static const uint8_t first[] = {
    1, 0, 0, 0, 0, 0, 0, 0, 0, 1, 0, 0,
    3, 0, 0, 0, 7, 1, 0, 0, 0, 2, 0, 0,
    0, 0, 0, 0, 2, 0, 0, 0, 0x54, 0x52, 0x41, 0x4c,
};
static const uint8_t second[] = {
    9,
    3, 0, 0, 0, 0, 0, 0, 0, 1, 0, 0, 0,
    1, 0, 0, 0, 1, 0, 0, 0, 0x54, 0x52, 0x41, 0x4c,
};
static const uint8_t both[] = {
    1, 0, 0, 0, 0, 0, 0, 0, 0, 1, 0, 0,
    3, 0, 0, 0, 7, 1, 0, 0, 0, 2, 0, 0,
    3, 0, 0, 0, 0, 0, 0, 0, 1, 0, 0, 0,
    0, 0, 0, 0, 3, 0, 0, 0, 0x54, 0x52, 0x41, 0x4c,
};
static const uint8_t no_records[] = {0, 0, 0, 0, 0, 0, 0, 0, 0x54, 0x52, 0x41, 0x4c};

static bool merged(struct besklaun_merged said, unsigned number, size_t written)
{
    return said.number == number && said.written == written;
}

static bool board_ran(struct besklaun_board_run said, unsigned number, size_t done, size_t written)
{
    return said.number == number && said.done == done && said.written == written;
}

/* Of the file `first` the bench takes the start of the LL, and no SC while it is open. */
static void board_runs(void)
{
    size_t a = sizeof first;
    memset(lent, BEFORE, sizeof lent);
    expect(board_ran(besklaun_run_board(1, 1, 5, NULL, 0, NULL, 0), 14, 0, 0), "no room for a listing");
    expect(board_ran(besklaun_run_board(1, 1, 5, first, a, lent, 743), 14, 0, 0), "743 bytes are too few for a run");
    expect(stays(0), "a run refused with 14 at its start writes nothing");
    expect(board_ran(besklaun_run_board(0, 0, 5, NULL, 0, lent, 744), 1, 0, 12), "no process is 1");
    expect(board_ran(besklaun_run_board(1, 65, 5, NULL, 0, lent, 744), 2, 0, 12), "65 words are 2");
    expect(board_ran(besklaun_run_board(1, 64, 5, NULL, 0, lent, 744), 25, 0, 13), "a run of no bytes is 25");
    expect(memcmp(lent, "refused 25 0\n", 13) == 0 && stays(13), "the listing of a file that is refused");
    expect(board_ran(besklaun_run_board(1, 1, 5, no_records, 12, lent, 744), 0, 0, 6), "a run of no records");
    expect(board_ran(besklaun_run_board(1, 1, 5, first, a, lent, 744), 5, 1, 12), "an SC during an LL is 5");
    expect(memcmp(lent, "refused 5 1\n", 12) == 0, "the listing of a run that is refused");
}

static void board_files(void)
{
    size_t a = sizeof first, b = sizeof second, room = sizeof both;
    uint8_t spoilt[sizeof second];
    memset(lent, BEFORE, sizeof lent);
    expect(merged(besklaun_merge(NULL, 0, NULL, 0, NULL, 0), 25, 0), "no bytes at all are 25");
    expect(merged(besklaun_merge(NULL, 0, second, b, lent, room), 25, 0), "no bytes first are 25");
    expect(merged(besklaun_merge(first, a, second, b - 1, lent, room), 25, 0), "a cut file is 25");
    memcpy(spoilt, second, b);
    spoilt[10] = 4;
    expect(merged(besklaun_merge(first, a, spoilt, b, lent, room), 26, 0), "an order of 4 is 26");
    expect(merged(besklaun_merge(first, a, first, a, lent, room), 27, 0), "a process in both files is 27");
    expect(merged(besklaun_merge(first, a, second, b, NULL, 0), 28, 0), "no room is 28");
    expect(merged(besklaun_merge(first, a, second, b, lent, room - 1), 28, 0), "room a byte short is 28");
    expect(stays(0), "a refused merge writes nothing");
    expect(merged(besklaun_merge(no_records, 12, no_records, 12, lent, 12), 0, 12), "files without records");
    expect(memcmp(lent, no_records, 12) == 0 && stays(12), "the merge of files without records");
    expect(merged(besklaun_merge(first, a, second, b, lent, room), 0, room), "two files are merged");
    expect(memcmp(lent, both, room) == 0 && stays(room), "the merge of two files");
}

static int run_given(const char *style)
{
    size_t count = fread(text, 1, sizeof text, stdin);
    struct besklaun_text_run run;
    if (strcmp(style, "explain") == 0) {
        struct besklaun_explained_run said = besklaun_explain_text(text, count, lent, sizeof lent, words, sizeof words);
        fwrite(words, 1, said.told, stdout);
        return said.whole ? said.run.number : 99;
    }
    if (strcmp(style, "run") == 0) {
        run = besklaun_run_text(text, count, lent, sizeof lent);
    } else {
        run = besklaun_trace_text(text, count, lent, sizeof lent);
    }
    fwrite(lent, 1, run.written, stdout);
    return run.number;
}

/* The first schedule of README, command by command, on a list that begins with any numbers. */
static uint64_t held[BESKLAUN_HELD_COUNT(2, 1, 1) + 1];
#define HELD (sizeof held / sizeof *held)

static struct besklaun_told held_to_its_end(size_t process, uint8_t order, const uint64_t *words)
{
    struct besklaun_told said = besklaun_held_step(held, HELD, process, order, 0, words, order == 2);
    expect(said.number == 0 && said.kind == 0, "a start is accepted and not answered");
    do {
        said = besklaun_held_step(held, HELD, process, 0, 0, NULL, 0);
    } while (said.number == 0 && said.kind == 0);
    return said;
}

static bool loaded(struct besklaun_told said, size_t count, uint64_t word)
{
    return said.number == 0 && said.kind == 1 && said.count == count && said.words == 1 && said.at < HELD
           && held[said.at] == word;
}

static bool answered(struct besklaun_told said, unsigned kind, size_t count, bool truth)
{
    return said.number == 0 && said.kind == kind && said.count == count && said.truth == truth && said.words == 0;
}

static bool held_refused(struct besklaun_told said, unsigned number)
{
    return said.number == number && said.kind == 0 && !said.truth && said.count == 0 && said.at == 0 && said.words == 0;
}

static void held_lists(void)
{
    static const uint64_t seven[] = {7, 9};
    uint64_t places[7], copy[HELD];
    for (size_t k = 0; k < HELD; k++) {
        held[k] = UINT64_MAX - k;
    }
    memcpy(copy, held, sizeof copy);
    expect(besklaun_held_set_up(held, HELD, 0, 1, 1, value, 1) == 1, "N = 0 is 1");
    expect(besklaun_held_set_up(held, HELD, 2, 65, 1, value, 1) == 2, "W = 65 is 2");
    expect(besklaun_held_set_up(held, HELD, 2, 1, 9, value, 1) == 23, "R = 9 is 23");
    expect(besklaun_held_set_up(held, HELD, 2, 1, SIZE_MAX, value, 1) == 23, "R too large to count its numbers is 23");
    expect(besklaun_held_set_up(held, HELD - 2, 2, 1, 1, value, 1) == 3, "a list one number short is 3");
    expect(besklaun_held_set_up(held, HELD, 2, 1, 2, value, 1) == 3, "a list short of a record is 3");
    expect(besklaun_held_set_up(NULL, 0, 2, 1, 1, value, 1) == 3, "no list is 3");
    expect(besklaun_held_set_up(held, HELD, 2, 1, 1, NULL, 0) == 8, "no value is 8");
    expect(held_refused(besklaun_held_command(NULL, 0, 0, 1, 0, NULL, 0), 1), "a command to no list is 1");
    expect(held_refused(besklaun_held_step(held, HELD, 0, 1, 0, NULL, 0), 1), "a step of any numbers is refused");
    expect(besklaun_held_places(NULL, 0, 0, NULL, 0) == 1, "no list has no places");
    expect(memcmp(copy, held, sizeof copy) == 0, "a refusal leaves every number");

    expect(besklaun_held_set_up(held, HELD, 2, 1, 1, value, 1) == 0, "a set-up");
    expect(held[HELD - 1] == copy[HELD - 1], "the number behind the words stays");
    expect(held[BESKLAUN_HELD_CALL(2)] == copy[BESKLAUN_HELD_CALL(2)], "a process that N does not need stays");
    expect(held[BESKLAUN_HELD_BANK(0, 3)] == 3 && held[BESKLAUN_HELD_BANK(0, 3) + 1] == 0, "Bank[3] = 3");
    expect(held[BESKLAUN_HELD_BANK(0, 4)] == copy[BESKLAUN_HELD_BANK(0, 4)], "Bank[4], which N does not need, stays");
    expect(held[BESKLAUN_HELD_HOLDING(0, 1)] == 5, "process 1 owns buffer 2N + 1");
    expect(held[BESKLAUN_HELD_WORDS(1)] == 5 && held[BESKLAUN_HELD_WORDS(1) + 1] == 0, "BUF[0] is the value, BUF[1] 0");
    places[6] = 77;
    expect(besklaun_held_places(held, HELD, 0, places, 7) == 0 && places[6] == 77, "the places, and the one behind stays");
    expect(places[0] == 0 && places[3] == 3 && places[4] == 4 && places[5] == 5, "every buffer at its place");
    expect(besklaun_held_places(held, HELD, 0, places, 5) == 3, "too few places are 3");
    expect(besklaun_held_places(held, HELD, 1, places, 7) == 24, "another record is 24");

    expect(held_refused(besklaun_held_step(held, HELD, 2, 1, 0, NULL, 0), 4), "process 2 is 4");
    expect(held_refused(besklaun_held_step(held, HELD, 0, 1, 1, NULL, 0), 24), "record 1 is 24");
    expect(held_refused(besklaun_held_step(held, HELD, 0, 2, 0, seven, 2), 8), "two words are 8");
    expect(held_refused(besklaun_held_step(held, HELD, 0, 0, 0, NULL, 0), 6), "a step of an idle process is 6");
    expect(held_refused(besklaun_held_step(held, HELD, 0, 3, 0, NULL, 0), 7), "a VL before any LL is 7");

    expect(loaded(held_to_its_end(0, 1, NULL), 10, 5), "0 L 10 5");
    expect(answered(held_to_its_end(0, 2, seven), 2, 6, true), "0 S 6 1");
    expect(held[BESKLAUN_HELD_RECORD(0)] == 4 && held[BESKLAUN_HELD_RECORD(0) + 1] == 1, "X is (4, 1)");
    expect(besklaun_held_places(held, HELD, 0, places, 6) == 0 && places[4] == 1 && places[1] == 4,
           "X keeps buffer 4 at 1, and process 0 owns buffer 1");
    expect(loaded(held_to_its_end(1, 1, NULL), 10, 7), "1 L 10 7");
    expect(answered(held_to_its_end(0, 3, NULL), 3, 1, false), "0 V 1 0");
    expect(besklaun_held_command(held, HELD, 1, 1, 0, NULL, 0).number == 0, "a start");
    expect(held_refused(besklaun_held_command(held, HELD, 1, 1, 0, NULL, 0), 5), "a start of a busy process is 5");

    memcpy(copy, held, sizeof copy);
    held[BESKLAUN_HELD_BANK(0, 2) + 1] = (uint64_t)1 << 40;
    expect(held_refused(besklaun_held_command(held, HELD, 1, 0, 0, NULL, 0), 9), "links of 2^40 are 9");
    expect(besklaun_held_places(held, HELD, 0, places, 6) == 9, "and so in no list of places");
    expect(besklaun_held_step(held, HELD, 1, 0, 0, NULL, 0).number == 0, "a step does not look there");
    memcpy(held, copy, sizeof copy);
    held[BESKLAUN_HELD_HELP(0, 1)] = 2;
    expect(held_refused(besklaun_held_step(held, HELD, 1, 0, 0, NULL, 0), 9), "a flag of 2 at its own place is 9");
    held[BESKLAUN_HELD_HELP(0, 1)] = copy[BESKLAUN_HELD_HELP(0, 1)];
    expect(memcmp(copy, held, sizeof copy) == 0, "a refusal leaves every number");
}

/* The state after 13 entries of README's first schedule, by docs/TRACE.md. */
static void held_texts(void)
{
    static const uint8_t steps[] = "2 1 5\n0l 0! 0s7 0! 1l 1! 0v 0!\n";
    static const uint8_t wrong_text[] = "2 1 5\n0l 0! 0q\n";
    uint64_t copy[HELD];
    for (size_t k = 0; k < HELD; k++) {
        held[k] = UINT64_MAX - k;
    }
    memcpy(copy, held, sizeof copy);
    struct besklaun_held_run said = besklaun_held_text(held, HELD, wrong_text, sizeof wrong_text - 1, 5);
    expect(said.number == 10 && said.entries == 0 && stopped(said.stop, BESKLAUN_STOP_AT_FAULT, 13, 0, 0), "a wrong text");
    said = besklaun_held_text(held, HELD - 2, steps, sizeof steps - 1, 5);
    expect(said.number == 3 && said.entries == 0 && stopped(said.stop, BESKLAUN_STOP_NO_ITEM, 0, 2, 0), "too short a list");
    expect(besklaun_held_text(NULL, 0, NULL, 0, 0).number == 10, "no text");
    expect(memcmp(copy, held, sizeof copy) == 0, "a refusal before the set-up leaves every number");
    said = besklaun_held_text(held, HELD, steps, sizeof steps - 1, 13);
    expect(said.number == 12 && said.entries == 13 && stopped(said.stop, BESKLAUN_STOP_AT_ITEM, 16, 2, 0), "13 entries");
    expect(held[BESKLAUN_HELD_CALL(0)] == 14 && held[BESKLAUN_HELD_RECORD(0) + 2] == 1, "line 14 is next, X is linked");
    expect(held[BESKLAUN_HELD_BANK(0, 0) + 1] == 1 && held[HELD - 1] == copy[HELD - 1], "Bank[0] is linked");
    said = besklaun_held_text(held, HELD, steps, sizeof steps - 1, 12);
    expect(said.number == 12 && said.entries == 12 && held[BESKLAUN_HELD_CALL(0)] == 12, "12 entries");
    said = besklaun_held_text(held, HELD, steps, sizeof steps - 1, SIZE_MAX);
    expect(said.number == 0 && said.entries == 31 && stopped(said.stop, BESKLAUN_STOP_NO_ITEM, 0, 2, 0), "all entries");
    expect(held[BESKLAUN_HELD_RECORD(0)] == 4 && held[BESKLAUN_HELD_RECORD(0) + 1] == 1, "X is (4, 1)");
}

static bool turned(struct besklaun_turned said, unsigned number, unsigned kind, bool passed, size_t left)
{
    return said.told.number == number && said.told.kind == kind && said.passed == passed && said.left == left;
}

/* process 0 has an LL and an SC of 7 on its list, process 1 nothing */
static void turns(void)
{
    static const uint64_t seven[] = {7};
    uint64_t copy[HELD];
    expect(besklaun_held_set_up(held, HELD, 2, 1, 1, value, 1) == 0, "a set-up for turns");
    expect(turned(besklaun_turn(held, HELD, 1, 0, 0, 0, NULL, 0), 0, 0, true, 0), "process 1 passes");
    expect(turned(besklaun_turn(held, HELD, 2, 1, 0, 2, NULL, 0), 22, 0, false, 2), "a turn of process 2 is 22");
    expect(turned(besklaun_turn(held, HELD, 0, 1, 0, 2, NULL, 0), 0, 0, false, 1), "process 0 starts its LL");
    for (size_t step = 1; step < 10; step++) {
        expect(turned(besklaun_turn(held, HELD, 0, 2, 0, 1, seven, 1), 0, 0, false, 1), "it steps");
    }
    expect(turned(besklaun_turn(held, HELD, 0, 2, 0, 1, seven, 1), 0, 1, false, 1), "it answers after 10");
    expect(turned(besklaun_turn(held, HELD, 0, 2, 1, 1, seven, 1), 24, 0, false, 0), "a refused call leaves the list");
    expect(turned(besklaun_turn(held, HELD, 0, 2, 0, 1, seven, 1), 0, 0, false, 0), "it starts its SC");
    held[BESKLAUN_HELD_BANK(0, 2)] = 6;
    memcpy(copy, held, sizeof copy);
    expect(turned(besklaun_turn(held, HELD, 1, 0, 0, 0, NULL, 0), 9, 0, false, 0), "9 before a pass");
    expect(turned(besklaun_turn(NULL, 0, 1, 0, 0, 3, NULL, 0), 1, 0, false, 3), "a turn on no list is 1");
    expect(memcmp(copy, held, sizeof copy) == 0, "a refused turn leaves every number");
}

static bool file_ran(struct besklaun_file_run said, unsigned number, size_t done)
{
    return said.number == number && said.done == done;
}

static void held_files(void)
{
    uint64_t copy[HELD];
    expect(besklaun_held_set_up(held, HELD, 2, 1, 1, value, 1) == 0, "a set-up for files");
    memcpy(copy, held, sizeof copy);
    expect(file_ran(besklaun_held_run_board(held, HELD, NULL, 0), 25, 0), "no bytes on a list are 25");
    expect(file_ran(besklaun_held_run_board(NULL, 0, first, sizeof first), 1, 0), "a file on no list is 1");
    expect(file_ran(besklaun_held_run_board(held, HELD, no_records, 12), 0, 0), "no records on a list");
    expect(memcmp(copy, held, sizeof copy) == 0, "where no command is done every number stays");
    expect(file_ran(besklaun_held_run_board(held, HELD, first, sizeof first), 5, 1), "an SC during an LL on a list is 5");
    expect(held[BESKLAUN_HELD_CALL(0)] == 1, "its LL is open");
}

#define MOIR (BESKLAUN_MOIR_COUNT(2, 1) + 1)

static uint64_t moir[MOIR];

/* a call of process p, to its end */
static struct besklaun_moir_told moir_to_its_end(size_t p, uint8_t order, const uint64_t *words)
{
    struct besklaun_moir_told told = besklaun_moir_step(moir, MOIR, p, order, words, words ? 1 : 0);
    while (told.number == 0 && told.kind == 0) {
        told = besklaun_moir_step(moir, MOIR, p, 0, NULL, 0);
    }
    return told;
}

static bool moir_answered(struct besklaun_moir_told told, unsigned kind, size_t count, bool truth)
{
    return told.number == 0 && told.kind == kind && told.count == count && told.truth == truth;
}

static void moir_lists(void)
{
    static const uint64_t seven[] = {7, 9};
    uint64_t copy[MOIR];
    for (size_t k = 0; k < MOIR; k++) {
        moir[k] = UINT64_MAX - k;
    }
    memcpy(copy, moir, sizeof copy);
    expect(besklaun_moir_set_up(moir, MOIR, 17, 1, value, 1) == 1, "Moir: N = 17 is 1");
    expect(besklaun_moir_set_up(moir, MOIR, 2, 0, value, 1) == 2, "Moir: W = 0 is 2");
    expect(besklaun_moir_set_up(moir, MOIR - 2, 2, 1, value, 1) == 3, "Moir: a list one number short is 3");
    expect(besklaun_moir_set_up(NULL, 0, 2, 1, value, 1) == 3, "Moir: no list is 3");
    expect(besklaun_moir_set_up(moir, MOIR, 2, 1, NULL, 0) == 8, "Moir: no value is 8");
    expect(besklaun_moir_command(NULL, 0, 0, 1, NULL, 0).number == 1, "Moir: a command to no list is 1");
    expect(besklaun_moir_step(moir, MOIR, 0, 1, NULL, 0).number == 1, "Moir: a step of any numbers is refused");
    expect(memcmp(copy, moir, sizeof copy) == 0, "Moir: a refusal leaves every number");

    expect(besklaun_moir_set_up(moir, MOIR, 2, 1, value, 1) == 0, "Moir: a set-up");
    expect(moir[MOIR - 1] == copy[MOIR - 1], "Moir: the number behind the words stays");
    expect(moir[BESKLAUN_MOIR_TAG(1)] == copy[BESKLAUN_MOIR_TAG(1)], "Moir: a tag that W does not need stays");
    expect(moir[BESKLAUN_MOIR_PROCESS(2)] == copy[BESKLAUN_MOIR_PROCESS(2)], "Moir: a process that N does not need stays");
    expect(moir[BESKLAUN_MOIR_WORDS] == 5 && moir[BESKLAUN_MOIR_WORDS + 2] == 5, "Moir: A[0] and the segment are the value");
    expect(besklaun_moir_step(moir, MOIR, 2, 1, NULL, 0).number == 4, "Moir: process 2 is 4");
    expect(besklaun_moir_step(moir, MOIR, 0, 2, seven, 2).number == 8, "Moir: two words are 8");
    expect(besklaun_moir_step(moir, MOIR, 0, 0, NULL, 0).number == 6, "Moir: a step of an idle process is 6");
    expect(besklaun_moir_step(moir, MOIR, 0, 3, NULL, 0).number == 7, "Moir: a VL before any WLL is 7");

    /* examples/moir/first-steps.listing */
    struct besklaun_moir_told told = moir_to_its_end(0, 1, NULL);
    expect(moir_answered(told, 1, 3, false) && told.words == 1 && moir[told.at] == 5, "Moir: 0 L 3 5");
    expect(moir_answered(moir_to_its_end(0, 2, seven), 2, 8, true), "Moir: 0 S 8 1");
    expect(moir[BESKLAUN_MOIR_HEADER] == 1 && moir[BESKLAUN_MOIR_HEADER + 1] == 0, "Moir: the header is (1, 0)");
    told = moir_to_its_end(1, 1, NULL);
    expect(moir_answered(told, 1, 3, false) && moir[told.at] == 7, "Moir: 1 L 3 7");
    expect(moir_answered(moir_to_its_end(0, 3, NULL), 3, 1, false), "Moir: 0 V 1 0");

    /* process 1's WLL has read the header, then process 0 writes: it names process 0 */
    moir_to_its_end(0, 1, NULL);
    expect(besklaun_moir_command(moir, MOIR, 1, 1, NULL, 0).number == 0, "Moir: a start");
    expect(besklaun_moir_command(moir, MOIR, 1, 1, NULL, 0).number == 5, "Moir: a start of a busy process is 5");
    expect(besklaun_moir_command(moir, MOIR, 1, 0, NULL, 0).number == 0, "Moir: line 10");
    expect(moir_answered(moir_to_its_end(0, 2, seven), 2, 8, true), "Moir: process 0 writes");
    do {
        told = besklaun_moir_command(moir, MOIR, 1, 0, NULL, 0);
    } while (told.number == 0 && told.kind == 0);
    expect(told.kind == 4 && told.named == 0 && told.words == 0, "Moir: the WLL names process 0");

    memcpy(copy, moir, sizeof copy);
    moir[BESKLAUN_MOIR_PROCESS(1) + 4] = 65536;
    expect(besklaun_moir_command(moir, MOIR, 0, 1, NULL, 0).number == 9, "Moir: a tag of 65,536 is 9");
    expect(besklaun_moir_step(moir, MOIR, 0, 1, NULL, 0).number == 0, "Moir: a step of process 0 does not look there");
    memcpy(moir, copy, sizeof copy);
    moir[BESKLAUN_MOIR_HEADER + 1] = 2;
    expect(besklaun_moir_step(moir, MOIR, 0, 1, NULL, 0).number == 9, "Moir: a header of process 2 is 9");
    moir[BESKLAUN_MOIR_HEADER + 1] = copy[BESKLAUN_MOIR_HEADER + 1];
    expect(memcmp(copy, moir, sizeof copy) == 0, "Moir: a refusal leaves every number");
}

int main(int count, char **given)
{
    if (count > 1) {
        return run_given(given[1]);
    }
    logs();
    reasons();
    texts();
    reports();
    messages();
    moir_texts();
    marks();
    views();
    seasons();
    schedules();
    board_files();
    board_runs();
    held_lists();
    held_texts();
    turns();
    held_files();
    moir_lists();
    if (!wrong) {
        puts("as expected");
    }
    return wrong;
}
