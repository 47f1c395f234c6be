/* Every function of besklaun.h that reads or writes lent memory, on thousands of drawn lists that lie flush against a
 * page that may not be touched: behind them, or before them. A touch outside is a signal, and the test fails.
 *     pages              says 'as expected'
 *     pages wrong        each count one more than there is: a touch must be found
 */
#define _DEFAULT_SOURCE
#include <signal.h>
#include <stdio.h>
#include <stdlib.h>
#include <string.h>
#include <sys/mman.h>
#include <unistd.h>

#include "besklaun.h"

#define ROUNDS 6000
/* what is lent at once lies in these, each between two pages that may not be touched */
#define ROOMS 3

static size_t page, room_bytes;
static uint8_t *rooms[ROOMS];
static uint64_t seed = 34;
static const char *volatile doing = "";

static uint64_t drawn(void)
{
    seed ^= seed << 13;
    seed ^= seed >> 7;
    seed ^= seed << 17;
    return seed;
}

static size_t below(size_t count)
{
    return count ? (size_t)(drawn() % count) : 0;
}

static void map_rooms(void)
{
    page = (size_t)sysconf(_SC_PAGESIZE);
    room_bytes = (300000 / page + 1) * page;
    for (int k = 0; k < ROOMS; k++) {
        uint8_t *all = mmap(NULL, room_bytes + 2 * page, PROT_READ | PROT_WRITE, MAP_PRIVATE | MAP_ANONYMOUS, -1, 0);
        if (all == MAP_FAILED || mprotect(all, page, PROT_NONE) || mprotect(all + page + room_bytes, page, PROT_NONE)) {
            perror("pages");
            exit(2);
        }
        rooms[k] = all + page;
    }
}

/* So many bytes of a room, flush against the page behind it or the one before it. Of none the pointer is into that
 * page, and for every other list null. */
static void *lent(int room, size_t bytes)
{
    static bool null;
    if (bytes == 0) {
        null = !null;
        if (null) {
            return NULL;
        }
    }
    return drawn() % 2 ? rooms[room] + room_bytes - bytes : bytes == 0 ? rooms[room] - 8 : rooms[room];
}

/* Numbers that are near a bound more often than not. */
static uint64_t number(void)
{
    static const uint64_t near[] = {0, 1, 2, 3, 5, 7, 8, 9, 15, 16, 17, 24, 26, 27, 47, 48, 63, 64, 65, 255, 256, 65535, 65536,
                                    (uint64_t)1 << 31, (uint64_t)1 << 32, (uint64_t)1 << 40, (uint64_t)1 << 61,
                                    (uint64_t)1 << 63, UINT64_MAX - 1, UINT64_MAX};
    return drawn() % 4 ? near[below(sizeof near / sizeof *near)] : drawn();
}

/* A size: one that is right more often than not. */
static size_t size(size_t most)
{
    return drawn() % 8 ? 1 + below(most) : (size_t)number();
}

static size_t few(size_t most)
{
    return drawn() % 8 ? below(most + 1) : below(3);
}

static uint64_t *numbers(int room, size_t count)
{
    uint64_t *list = lent(room, 8 * count);
    for (size_t k = 0; k < count; k++) {
        list[k] = number();
    }
    return list;
}

static uint8_t *bytes(int room, size_t count)
{
    uint8_t *list = lent(room, count);
    for (size_t k = 0; k < count; k++) {
        list[k] = (uint8_t)drawn();
    }
    return list;
}

/* how many more than there are a function is told */
static size_t more;

/* how many calls were not refused, of each group */
enum { HELD, PLACES, FILES, FIRST, MOIR, LOG, VIEW, TEXT, EXPLAINED, SEASON, TURNS, BOARD, GROUPS };
static long accepted[GROUPS];

static void counts(int group, unsigned refusal)
{
    accepted[group] += refusal == 0;
}

static size_t told(size_t count)
{
    return count + more;
}

/* A held list is made by a set-up where it is long enough, some of its numbers are written over, and it is cut now and
 * then. */
static size_t cut(size_t count)
{
    size_t less = drawn() % 3 ? 0 : drawn() % 2 ? 1 : below(count + 1);
    return count - (less < count ? less : count);
}

static void spoiled(uint64_t *list, size_t count, size_t before)
{
    size_t last = count < before ? count : before;
    for (size_t k = last ? below(4) : 0; k > 0; k--) {
        list[below(last)] = number();
    }
}

static void held_calls(void)
{
    size_t n = size(16), w = size(drawn() % 2 ? 64 : 2), r = size(drawn() % 2 ? 8 : 2);
    size_t count = cut(n <= 16 && w <= 64 && r <= 8 ? BESKLAUN_HELD_COUNT(n, w, r) : below(2000)), value_count = drawn() % 4 ? (w <= 64 ? w : 64) : few(65);
    uint64_t *list = numbers(0, count), *value = numbers(1, value_count);
    doing = "besklaun_held_set_up";
    counts(HELD, besklaun_held_set_up(list, told(count), n, w, r, value, told(value_count)));
    for (int k = 0; k < 12; k++) {
        size_t process = drawn() % 8 ? below(n <= 16 ? n : 16) : (size_t)number();
        size_t record = drawn() % 8 ? below(r <= 8 ? r : 8) : (size_t)number();
        uint8_t order = (uint8_t)(drawn() % 4 ? below(5) : drawn());
        size_t place_count = drawn() % 2 ? 3 * (n <= 16 ? n : 16) : few(50);
        uint64_t *places = numbers(2, place_count);
        if (k % 4 == 3) {
            spoiled(list, count, BESKLAUN_HELD_WORDS(r <= 8 ? r : 8));
        }
        doing = "besklaun_held_command";
        counts(HELD, besklaun_held_command(list, told(count), process, order, record, value, told(value_count)).number);
        doing = "besklaun_held_step";
        counts(HELD, besklaun_held_step(list, told(count), process, order, record, value, told(value_count)).number);
        doing = "besklaun_held_places";
        counts(PLACES, besklaun_held_places(list, told(count), record, places, told(place_count)));
        doing = "besklaun_turn";
        counts(HELD, besklaun_turn(list, told(count), process, order, record, below(3), value, told(value_count)).told.number);
    }
}

static void moir_calls(void)
{
    size_t n = size(16), w = size(drawn() % 2 ? 64 : 2);
    size_t count = cut(n <= 16 && w <= 64 ? BESKLAUN_MOIR_COUNT(n, w) : below(2000));
    size_t value_count = drawn() % 4 ? (w <= 64 ? w : 64) : few(65);
    uint64_t *list = numbers(0, count), *value = numbers(1, value_count);
    doing = "besklaun_moir_set_up";
    counts(MOIR, besklaun_moir_set_up(list, told(count), n, w, value, told(value_count)));
    for (int k = 0; k < 12; k++) {
        size_t process = drawn() % 8 ? below(n <= 16 ? n : 16) : (size_t)number();
        uint8_t order = (uint8_t)(drawn() % 4 ? below(5) : drawn());
        if (k % 4 == 3) {
            spoiled(list, count, BESKLAUN_MOIR_WORDS);
        }
        doing = "besklaun_moir_command";
        counts(MOIR, besklaun_moir_command(list, told(count), process, order, value, told(value_count)).number);
        doing = "besklaun_moir_step";
        counts(MOIR, besklaun_moir_step(list, told(count), process, order, value, told(value_count)).number);
    }
}

static void garbage_lists(void)
{
    size_t count = few(400);
    uint64_t *list = numbers(0, count);
    size_t value_count = few(3);
    uint64_t *value = numbers(1, value_count);
    doing = "besklaun_held_command of garbage";
    counts(HELD, besklaun_held_command(list, told(count), (size_t)number(), (uint8_t)drawn(), (size_t)number(), value, told(value_count)).number);
    doing = "besklaun_held_step of garbage";
    counts(HELD, besklaun_held_step(list, told(count), (size_t)number(), (uint8_t)drawn(), (size_t)number(), value, told(value_count)).number);
    doing = "besklaun_moir_command of garbage";
    counts(MOIR, besklaun_moir_command(list, told(count), (size_t)number(), (uint8_t)drawn(), value, told(value_count)).number);
    doing = "besklaun_moir_step of garbage";
    counts(MOIR, besklaun_moir_step(list, told(count), (size_t)number(), (uint8_t)drawn(), value, told(value_count)).number);
}

static void judge_calls(void)
{
    static const uint64_t shown[] = {0, 1, 1024, 11264, 0, 3072, 5, 0, 2, 12288, 18432, 1, 18432, 7,
                                     1, 1, 19456, 29696, 0, 21504, 7, 0, 3, 30720, 31744, 0, 31744, 0};
    bool right = drawn() % 2;
    size_t n = right ? 2 : size(4), w = right ? 1 : size(3), value_count = drawn() % 4 && w <= 3 ? w : few(4);
    size_t log_count = right ? 7 * below(5) : few(80);
    uint64_t *value = numbers(0, value_count), *log = numbers(1, log_count);
    if (right) {
        memcpy(log ? log : value, shown, log_count * 8);
        spoiled(log, log_count, drawn() % 2 ? log_count : 0);
    }
    doing = "besklaun_judge";
    counts(LOG, besklaun_judge(n, w, value, told(value_count), log, told(log_count)).number);
    doing = "besklaun_judge_with_reason";
    counts(LOG, besklaun_judge_with_reason(n, w, value, told(value_count), log, told(log_count)).number);
    doing = "besklaun_view";
    counts(VIEW, besklaun_view(w, value, told(value_count), log, told(log_count), drawn() % 4 ? below(4) : (size_t)number()).number);
}

/* So many bytes of these words, one after another, cut at the end; now and then one of them is another. */
static uint8_t *said(int room, size_t count, const char *first, const char *const *words, size_t kinds)
{
    uint8_t *list = lent(room, count);
    const char *word = first;
    for (size_t k = 0; k < count; k++) {
        while (!*word) {
            word = words[below(kinds)];
        }
        list[k] = (uint8_t)*word++;
    }
    if (count && drawn() % 4 == 0) {
        list[below(count)] = (uint8_t)drawn();
    }
    return list;
}

static uint8_t *text(int room, size_t count)
{
    static const char *const first[] = {"2 1 5\n", "2 1 5\n", "3 2 7\n", "16 64 4294967295\n", "2 1"};
    static const char *const items[] = {"0l 0! ", "1l 1! ", "0s7 0!\n", "0v 0! ", "1s9 1! ", "0l 1l 3(0. 1.) 0! 1! ", "0. "};
    uint8_t *list = said(room, count, first[below(5)], items, sizeof items / sizeof *items);
    /* an item that is cut off is left out, more often than not */
    for (size_t k = count; drawn() % 8 && k > 0 && list[k - 1] != ' ' && list[k - 1] != '\n'; k--) {
        list[k - 1] = ' ';
    }
    return list;
}

static uint8_t *listing(int room, size_t count)
{
    static const char *const lines[] = {"0 L 10 5\n", "0 S 6 1\n", "1 L 10 7\n", "0 V 1 0\n", "end 31\n"};
    uint8_t *list = said(room, count, "", lines, 4);
    if (count >= 7 && drawn() % 2) {
        memcpy(list + count - 7, "end 31\n", 7);
    }
    return list;
}

static void four(uint8_t *at, size_t it)
{
    for (int k = 0; k < 4; k++) {
        at[k] = (uint8_t)(it >> (8 * k));
    }
}

/* A board's file of these processes: free bytes, records of rising ticks and a trailer, where there is room. */
static uint8_t *board(int room, size_t count, size_t process)
{
    uint8_t *list = bytes(room, count);
    if (count < 12 || drawn() % 8 == 0) {
        return list;
    }
    size_t records = below((count - 12) / 12 + 1), start = count - 12 - 12 * records, tick = 0;
    for (size_t k = 0; k < records; k++) {
        uint8_t *at = list + start + 12 * k;
        uint8_t order = (uint8_t)(drawn() % 2 ? 1 : below(4));
        four(at, tick += below(3));
        /* an SC's value; of another record a right one is 0 */
        four(at + 4, order == 2 || drawn() % 16 == 0 ? (size_t)number() : 0);
        at[8] = (uint8_t)(process + below(2));
        at[9] = order;
        at[10] = at[11] = 0;
    }
    four(list + count - 12, start);
    four(list + count - 8, records);
    memcpy(list + count - 4, "TRAL", 4);
    if (drawn() % 8 == 0) {
        list[below(count)] = (uint8_t)drawn();
    }
    return list;
}

/* a schedule text, and a board's file, on a held list */
static void held_files(void)
{
    size_t n = size(16), w = size(drawn() % 2 ? 64 : 2);
    size_t count = cut(n <= 16 && w <= 64 ? BESKLAUN_HELD_COUNT(n, w, 1) : below(2000)), value_count = w <= 64 ? w : 64;
    size_t file_count = few(200), text_count = few(60);
    uint64_t *list = numbers(0, count), *value = numbers(1, value_count);
    doing = "besklaun_held_set_up for a file";
    counts(HELD, besklaun_held_set_up(list, told(count), n, w, 1, value, told(value_count)));
    uint8_t *file = board(1, file_count, 0), *schedule = text(2, text_count);
    doing = "besklaun_held_run_board";
    counts(FILES, besklaun_held_run_board(list, told(count), file, told(file_count)).done == 0);
    spoiled(list, count, BESKLAUN_HELD_WORDS(1));
    doing = "besklaun_held_run_board of garbage";
    counts(FILES, besklaun_held_run_board(list, told(count), file, told(file_count)).done == 0);
    doing = "besklaun_held_text";
    counts(FIRST, besklaun_held_text(list, told(count), schedule, told(text_count), drawn() % 4 ? below(40) : (size_t)number()).entries == 0);
}

static void text_calls(void)
{
    size_t count = few(60), room = drawn() % 2 ? few(4000) : few(12);
    uint8_t *schedule = text(0, count), *out = bytes(1, room);
    doing = "besklaun_run_text";
    counts(TEXT, besklaun_run_text(schedule, told(count), out, told(room)).entries == 0);
    doing = "besklaun_trace_text";
    counts(TEXT, besklaun_trace_text(schedule, told(count), out, told(room)).entries == 0);
    doing = "besklaun_run_text_with_report";
    counts(TEXT, besklaun_run_text_with_report(schedule, told(count), out, told(room)).run.entries == 0);
    doing = "besklaun_trace_text_with_report";
    counts(TEXT, besklaun_trace_text_with_report(schedule, told(count), out, told(room)).run.entries == 0);
    doing = "besklaun_moir_run_text";
    counts(TEXT, besklaun_moir_run_text(schedule, told(count), out, told(room)).entries == 0);
    doing = "besklaun_moir_trace_text";
    counts(TEXT, besklaun_moir_trace_text(schedule, told(count), out, told(room)).entries == 0);
    doing = "besklaun_moir_run_text_with_report";
    counts(TEXT, besklaun_moir_run_text_with_report(schedule, told(count), out, told(room)).run.entries == 0);
    doing = "besklaun_moir_trace_text_with_report";
    counts(TEXT, besklaun_moir_trace_text_with_report(schedule, told(count), out, told(room)).run.entries == 0);
}

/* what a run says goes to a second room, and the marks of its trace go there, too */
static void told_text_calls(void)
{
    size_t count = few(60), room = drawn() % 2 ? few(4000) : few(12), second_room = drawn() % 2 ? few(4000) : few(12);
    uint8_t *schedule = text(0, count), *out = bytes(1, room), *second = bytes(2, second_room);
    doing = "besklaun_explain_text";
    counts(EXPLAINED, besklaun_explain_text(schedule, told(count), out, told(room), second, told(second_room)).run.entries == 0);
    doing = "besklaun_explain_trace";
    struct besklaun_explained_run traced = besklaun_explain_trace(schedule, told(count), out, told(room), second, told(second_room));
    counts(EXPLAINED, traced.run.entries == 0);
    size_t written = drawn() % 2 ? traced.run.written : below(room + 1);
    memmove(out + room - written, out, written);
    doing = "besklaun_mark_trace";
    counts(EXPLAINED, besklaun_mark_trace(out + room - written, told(written), second, told(second_room)) == 0);
}

static void season_calls(void)
{
    struct besklaun_sums *season = lent(0, sizeof *season);
    size_t count = few(80);
    uint8_t *lines = listing(1, count);
    *season = drawn() % 2 ? besklaun_empty_sums(2, 1) : besklaun_empty_sums(size(16), size(64));
    doing = "besklaun_add_listing";
    counts(SEASON, besklaun_add_listing(season, lines, told(count)).number);
    doing = "besklaun_fractions";
    counts(SEASON, besklaun_fractions(season).number);
    uint64_t *each = (uint64_t *)(void *)season;
    for (size_t k = 0; k < sizeof *season / 8; k++) {
        each[k] = number();
    }
    doing = "besklaun_add_listing of garbage";
    counts(SEASON, besklaun_add_listing(season, lines, told(count)).number);
    doing = "besklaun_fractions of garbage";
    counts(SEASON, besklaun_fractions(season).number);
}

static void turn_calls(void)
{
    size_t a = drawn() % 4 ? below(12) : (size_t)number(), b = drawn() % 4 ? below(12) : (size_t)number();
    size_t count = drawn() % 2 && a < 12 && b < 12 ? a + b : few(40);
    uint8_t *turns = lent(0, count);
    for (size_t k = 0; k < count; k++) {
        turns[k] = drawn() % 32 ? (uint8_t)(drawn() % 2) : (uint8_t)drawn();
    }
    doing = "besklaun_number_for";
    counts(TURNS, besklaun_number_for(a, b, turns, told(count)).refusal);
    doing = "besklaun_schedule_after";
    counts(TURNS, besklaun_schedule_after(a, b, turns, told(count)).refusal);
    doing = "besklaun_schedule_for";
    counts(TURNS, besklaun_schedule_for(a, b, drawn() % 2 ? below(40) : number(), turns, told(count)).refusal);
}

static void board_calls(void)
{
    size_t first_count = few(200), second_count = few(200), room = drawn() % 4 ? 400 + few(4000) : few(400);
    uint8_t *first = board(0, first_count, 0), *second = board(1, second_count, drawn() % 8 ? 2 : 1);
    uint8_t *out = bytes(2, room);
    doing = "besklaun_merge";
    counts(BOARD, besklaun_merge(first, told(first_count), second, told(second_count), out, told(room)).number);
    doing = "besklaun_run_board";
    counts(BOARD, besklaun_run_board(size(16), size(64), (uint32_t)number(), first, told(first_count), out, told(room)).number);
}

static void touched(int signal)
{
    (void)signal;
    printf("pages: a touch outside what is lent: %s\n", doing);
    fflush(stdout);
    _exit(1);
}

int main(int argc, char **argv)
{
    static void (*const all[])(void) = {held_calls, held_files, moir_calls, garbage_lists, judge_calls, text_calls,
                                        told_text_calls, season_calls, turn_calls, board_calls};
    more = argc == 2 && strcmp(argv[1], "wrong") == 0;
    map_rooms();
    signal(SIGSEGV, touched);
    signal(SIGBUS, touched);
    for (int k = 0; k < ROUNDS; k++) {
        for (size_t each = 0; each < sizeof all / sizeof *all; each++) {
            all[each]();
        }
    }
    for (int k = 0; k < GROUPS; k++) {
        if (accepted[k] < ROUNDS / 20) {
            printf("pages: of group %d only %ld calls were not refused\n", k, accepted[k]);
            return 1;
        }
    }
    puts("as expected");
    return 0;
}
