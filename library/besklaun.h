/* The proved entries of the bench that work on plain slices, for C and C++ on x86-64 Linux.
 *
 * `tools/static-library` proves them and writes target/staticlib/libbesklaun.a. It needs nothing but the C library:
 *
 *     cc -I library program.c -L target/staticlib -lbesklaun
 *
 * A slice is a pointer and a count of elements. What a caller owes is what C asks of any such pair:
 * - where the count is not 0, the pointer is aligned for its elements, and there are so many of them, all readable (and
 *   writable where the pointer is not to const);
 * - nobody else writes them during the call, and what the function writes overlaps nothing else that it is given.
 * A pointer whose count is 0 is not used: null will do. Nothing else is asked: any numbers, any bytes, any counts.
 *
 * What is promised, and proved: each function returns; it reads and writes only what it is lent; what it returns and
 * what it leaves there is what its definition says, named at each function, in the folder crates/ of the project.
 * Nothing is kept between calls, so calls from several threads do not disturb each other.
 * Not proved: that the stack suffices. besklaun_run_text and besklaun_trace_text take less than 640 KiB of it,
 * besklaun_run_board and the text runs of Moir's bench less than 128 KiB, the judges less than 64 KiB, the others less
 * than 32 KiB. Where a thread has less, the system ends the process.
 *
 * `number` is 0, or the number of the cause of a refusal (BESKLAUN_NO_SUCH_PROCESS and its like, below).
 */
#ifndef BESKLAUN_H
#define BESKLAUN_H

#include <stdbool.h>
#include <stddef.h>
#include <stdint.h>

#ifdef __cplusplus
extern "C" {
#endif

/* The version, also as a number: 10,000 for each major version, 100 for each minor one. */
#define BESKLAUN_VERSION "0.2.0"
#define BESKLAUN_VERSION_NUMBER 200

/* The number of the version that is linked. Definition: version_number, besklaun/specs/Version. */
uint32_t besklaun_version(void);

/* The causes of a refusal (docs/NOTATION.md, docs/JUDGE.md, docs/INTERLEAVINGS.md, docs/BOARDS.md). 13 is given to
 * nothing. */
#define BESKLAUN_N_OUT_OF_RANGE          1 /* N is not 1 to 16 */
#define BESKLAUN_W_OUT_OF_RANGE          2 /* W is not 1 to 64 */
#define BESKLAUN_TOO_LITTLE_LENT         3 /* too little memory is lent, or the list is no whole number of values */
#define BESKLAUN_NO_SUCH_PROCESS         4 /* the process is not below N */
#define BESKLAUN_START_AT_BUSY           5 /* a start at a process that has an open call */
#define BESKLAUN_STEP_AT_IDLE            6 /* a step at a process that has no open call */
#define BESKLAUN_NEVER_LINKED            7 /* an SC or VL where no LL of the process was ever answered */
#define BESKLAUN_VALUE_NOT_W_WORDS       8 /* a value that has not W words */
#define BESKLAUN_NUMBER_OUT_OF_RANGE     9 /* a number of the lent memory is out of its range */
#define BESKLAUN_TEXT_BROKEN            10 /* the text breaks the notation */
#define BESKLAUN_TOO_DEEP               11 /* the text opens a ninth group */
#define BESKLAUN_TOO_MUCH               12 /* the text has more than 16,384 bytes, or more than 60,000 commands */
#define BESKLAUN_NO_ROOM                14 /* there is no room for another line */
#define BESKLAUN_NO_SUCH_SUCCESS        15 /* a success that is not in the list */
#define BESKLAUN_TOO_MANY_CALLS         16 /* more than 512 calls */
#define BESKLAUN_ANSWER_NOT_AFTER_START 17 /* a call that is answered no later than it starts */
#define BESKLAUN_NO_LISTING             18 /* the bytes are no listing */
#define BESKLAUN_SEASON_FULL            19 /* 4,096 listings are taken */
#define BESKLAUN_TOO_MANY_TURNS         20 /* more than 32 turns of a process */
#define BESKLAUN_NO_SUCH_NUMBER         21 /* no schedule has this number */
#define BESKLAUN_NOT_A_SCHEDULE         22 /* the turns are of no such schedule, or of another process than 0 and 1 */
#define BESKLAUN_R_OUT_OF_RANGE         23 /* R is not 1 to 8 */
#define BESKLAUN_NO_SUCH_RECORD         24 /* the record is not below R */
#define BESKLAUN_BAD_TRAILER            25 /* the file has no right trailer, or more than 16,777,216 bytes */
#define BESKLAUN_BAD_RECORD             26 /* the file has a bad record, or a tick that falls */
#define BESKLAUN_PROCESS_IN_BOTH        27 /* a process is in both files */
#define BESKLAUN_TOO_LITTLE_ROOM        28 /* too little room for the merged file, or it would have more than 16,777,216 bytes */

/* Judging a log (docs/JUDGE.md): whether the moments that it claims are a linearization of its calls. */

struct besklaun_judgement {
    uint8_t number; /* 0, or the cause of a refusal: 1, 2, 4, 8, 16 or 17 */
    bool yes;       /* whether the log earns a yes; false where it is refused */
};

/* n processes, w words, the value with which the record begins, and for each answered call 6 + w numbers: process, kind
 * (1 LL, 2 SC, 3 VL), start place, answer place, truth, moment, words. Both counts are counts of numbers.
 * Definition: judgement_of (judged n w value log), besklaun/specs/Judgements and verdicts/specs/Verdicts. */
struct besklaun_judgement besklaun_judge(size_t n, size_t w, const uint64_t *value, size_t value_count,
                                         const uint64_t *log, size_t log_count);

/* The same, with why it is no. A call is told by its index in the log, from 0 on: its numbers begin at index * (6 + w).
 * Where a field means nothing it is 0 or false. */
struct besklaun_reasoned {
    uint8_t number;    /* as above */
    bool yes;          /* as above */
    uint8_t condition; /* 0, or where it is neither refused nor yes the first condition of docs/JUDGE.md that fails, 1 to 6 */
    bool given;        /* condition 5, an LL: the object answers the value. Refused 8: the value is not of w words */
    bool truth;        /* condition 5, an SC or VL: what the object answers */
    size_t call;       /* the call at fault; of two the first. Refused 4, 8 or 17: the call that it is about */
    size_t other;      /* conditions 2 and 3: the second call. Condition 5, an LL, where `given` is false: the SC whose
                        * words the object answers */
};

/* Definition: reasoned_of (judged_with_reason n w value log), besklaun/specs/Judgements and verdicts/specs/Reasons. */
struct besklaun_reasoned besklaun_judge_with_reason(size_t n, size_t w, const uint64_t *value, size_t value_count,
                                                    const uint64_t *log, size_t log_count);

/* Running a schedule text (docs/NOTATION.md), on a bench that is set up for it and then gone. */

struct besklaun_text_run {
    uint8_t number; /* 0 at `end`, or the C of `refused C E` */
    size_t entries; /* the commands carried out */
    size_t written; /* the bytes written, from the first on; the bytes after them stay */
};

/* The listing goes to `listing`. With room for fewer than 744 bytes the run is refused with 14 and nothing is written.
 * Definition: text_run false text listing, besklaun/specs/OwnBench and text_model/specs/TextRun. */
struct besklaun_text_run besklaun_run_text(const uint8_t *text, size_t text_count,
                                           uint8_t *listing, size_t listing_count);

/* The same run with its trace (docs/TRACE.md) in place of the listing. It asks for room of 872 bytes.
 * Definition: text_run true text trace. */
struct besklaun_text_run besklaun_trace_text(const uint8_t *text, size_t text_count,
                                             uint8_t *trace, size_t trace_count);

/* Where a text run stopped. */

enum besklaun_stop_kind {
    BESKLAUN_STOP_NOT_READ = 0,  /* 14 at its start, or 12 for length: the text is not looked at */
    BESKLAUN_STOP_AT_FAULT = 1,  /* 10 or 11: at the first byte after which no text could be right */
    BESKLAUN_STOP_NO_ITEM = 2,   /* `end`, or 1, 2 or 3: at no item */
    BESKLAUN_STOP_AT_ITEM = 3    /* at the item whose entry is refused */
};

/* 0 where a number means nothing. */
struct besklaun_text_stop {
    uint8_t kind;     /* one of besklaun_stop_kind */
    size_t place;     /* the fault's byte, or the item's first, from 0 on; the text's end counts as a place */
    uint64_t n;       /* with kind 2 and 3, N and W as the first line has them */
    uint64_t w;
    uint64_t process; /* with kind 3, the item's process, 16 for every number above 15 */
};

struct besklaun_reported_run {
    struct besklaun_text_run run;
    struct besklaun_text_stop stop;
};

/* The two runs with the report of their stop.
 * Definition: Reported false text listing, besklaun/specs/TextReports and text_runs/specs/StopPlaces. */
struct besklaun_reported_run besklaun_run_text_with_report(const uint8_t *text, size_t text_count,
                                                           uint8_t *listing, size_t listing_count);

/* Definition: Reported true text trace. */
struct besklaun_reported_run besklaun_trace_text_with_report(const uint8_t *text, size_t text_count,
                                                             uint8_t *trace, size_t trace_count);

/* The two runs with what ./schedule and ./trace say of them on standard error: where and why the run was refused, and
 * which calls are open at its end, a line each; none where there is nothing to say. */

/* room enough for every message */
#define BESKLAUN_MESSAGE_ROOM 4096

struct besklaun_explained_run {
    struct besklaun_text_run run;
    struct besklaun_text_stop stop;
    size_t told; /* the bytes of the message that are written, from the first on; the bytes after them stay */
    bool whole;  /* whether there was room for all of it */
};

/* Proved of the words: where the run comes to its `end`, they are the lines of the calls that it leaves open. Where it is
 * refused, they are written by the functions that write them for ./schedule, and no definition says which they are.
 * Definition: Explained false text listing words, besklaun/specs/Explained and messages/specs/OpenLines. */
struct besklaun_explained_run besklaun_explain_text(const uint8_t *text, size_t text_count,
                                                    uint8_t *listing, size_t listing_count,
                                                    uint8_t *words, size_t words_count);

/* Definition: Explained true text trace words. */
struct besklaun_explained_run besklaun_explain_trace(const uint8_t *text, size_t text_count,
                                                     uint8_t *trace, size_t trace_count,
                                                     uint8_t *words, size_t words_count);

/* The same text on Moir's bench (docs/NOTATION.md), with room as above. Where a WLL names a process its letter is N.
 * Definition: moir_text_run false text listing, besklaun/specs/MoirTexts and moir_text_model/specs/TextRun. */
struct besklaun_text_run besklaun_moir_run_text(const uint8_t *text, size_t text_count,
                                                uint8_t *listing, size_t listing_count);

/* Definition: moir_text_run true text trace. */
struct besklaun_text_run besklaun_moir_trace_text(const uint8_t *text, size_t text_count,
                                                  uint8_t *trace, size_t trace_count);

/* The two with the report of their stop.
 * Definition: MoirReported false text listing, besklaun/specs/MoirTexts. */
struct besklaun_reported_run besklaun_moir_run_text_with_report(const uint8_t *text, size_t text_count,
                                                                uint8_t *listing, size_t listing_count);

/* Definition: MoirReported true text trace. */
struct besklaun_reported_run besklaun_moir_trace_text_with_report(const uint8_t *text, size_t text_count,
                                                                  uint8_t *trace, size_t trace_count);

/* A trace of besklaun_trace_text with its marks (docs/TRACE.md): before each line two columns, `~ ` where its command could
 * change places with that of the line before it, two spaces elsewhere. What does not fit into `marked` is not written;
 * 3 * trace_count bytes are enough for every trace. It returns the length of the marked trace; 0 for more than 4,294,967,295
 * bytes, which no trace has.
 * Definition: mark_told trace marked, besklaun/specs/MarkedTraces and marking/specs/Marked. */
size_t besklaun_mark_trace(const uint8_t *trace, size_t trace_count, uint8_t *marked, size_t marked_count);

/* The view of a written value: the words of success k, of a record that begins with `value` and to which successes wrote
 * the values of `written`, w words each, in their order. Success 0 is the value with which it begins. */

struct besklaun_part {
    uint8_t number; /* 0, or the cause of a refusal: 2, 3, 8 or 15 */
    bool written;   /* whether the words stand in `written`, else in `value` */
    size_t start;   /* the first of them */
    size_t count;   /* how many: w, or 0 where it is refused */
};

/* Definition: view_told w value written k, besklaun/specs/Views and model/specs/View. */
struct besklaun_part besklaun_view(size_t w, const uint64_t *value, size_t value_count,
                                   const uint64_t *written, size_t written_count, size_t k);

/* A season of listings (docs/FRACTIONS.md): the sums of up to 4,096 listings of n processes and w words, in whatever
 * order. The caller keeps them; numbers that it made otherwise are refused where they are out of their range. */

struct besklaun_sum {
    uint64_t successes; /* SCs that succeeded */
    uint64_t scs;       /* SCs answered */
    uint64_t steps;     /* the steps of all LLs answered */
    uint64_t lls;       /* LLs answered */
};

struct besklaun_sums {
    uint64_t n;
    uint64_t w;
    uint64_t taken;               /* how many listings were added */
    struct besklaun_sum each[16]; /* of each process; those from n on are not looked at */
};

/* The sums before the first listing.
 * Definition: empty_sums n w, sums/specs/Season. */
struct besklaun_sums besklaun_empty_sums(uint64_t n, uint64_t w);

struct besklaun_added {
    uint8_t number; /* 0, or the cause of a refusal, which leaves the sums: 1, 2, 9, 19 or 18 */
    size_t at;      /* 18: the place of the first wrong byte; else 0 */
};

/* A listing added. `season` is aligned for the struct, and read and written.
 * Definition: adding season listing, besklaun/specs/Seasons. */
struct besklaun_added besklaun_add_listing(struct besklaun_sums *season, const uint8_t *listing, size_t listing_count);

struct besklaun_fraction {
    uint64_t over;
    uint64_t under;
};

/* Of a process: successful SCs over SCs answered, and LL steps over LLs answered, in lowest terms; 0 over 0 for no call. */
struct besklaun_row {
    struct besklaun_fraction successes;
    struct besklaun_fraction steps;
};

struct besklaun_fractions {
    uint8_t number;               /* 0, or the cause of a refusal, whose rows are all 0 over 0: 1, 2 or 9 */
    struct besklaun_row rows[16]; /* those from n on are 0 over 0 */
};

/* The table of the sums.
 * Definition: fractions_of (table season), besklaun/specs/Seasons and sums/specs/Fractions. */
struct besklaun_fractions besklaun_fractions(const struct besklaun_sums *season);

/* Small schedules (docs/INTERLEAVINGS.md): every way in which processes 0 and 1 can take a and b turns, in dictionary
 * order, process 0 before process 1, with numbers from 0. A turn is a byte, 0 or 1.
 * refusal is 0, or 20 where a or b is above 32, or 21 where the number is not below the count of schedules, or 22
 * where the turns have other totals or a third process; in that order. A refusal changes nothing. */

struct besklaun_found_turns {
    uint8_t refusal; /* 0, 20 or 21 */
    size_t count;    /* a + b; 0 where it is refused */
};

/* The schedule for a number, written to `turns`. 64 bytes are enough for every schedule. The bytes behind it stay;
 * where turn_count is less than `count`, all bytes stay.
 * Definition: schedule_into (found_for a b number) turns, besklaun/specs/TurnBytes and enumeration/specs/Replies. */
struct besklaun_found_turns besklaun_schedule_for(size_t a, size_t b, uint64_t number,
                                                  uint8_t *turns, size_t turn_count);

struct besklaun_turns_number {
    uint8_t refusal; /* 0, 20 or 22 */
    uint64_t number; /* 0 where it is refused */
};

/* The number for a schedule.
 * Definition: number_told (numbered_for a b turns). */
struct besklaun_turns_number besklaun_number_for(size_t a, size_t b, const uint8_t *turns, size_t turn_count);

struct besklaun_turns_after {
    uint8_t refusal; /* 0, 20 or 22 */
    bool last;       /* whether the schedule was the last; then it stays in `turns` */
};

/* The schedule after the one in `turns`, written in its place.
 * Definition: after_into (following_for a b turns) turns. */
struct besklaun_turns_after besklaun_schedule_after(size_t a, size_t b, uint8_t *turns, size_t turn_count);

/* Merging the trace files of a board's two halves (docs/BOARDS.md): the records of both by tick, the first file's first
 * at equal ticks, with no free bytes. */

struct besklaun_merged {
    uint8_t number; /* 0, or the cause of a refusal: 25, 26, 27 or 28 */
    size_t written; /* the bytes written, from the first on; the bytes after them stay. 0 where it is refused */
};

/* The merged file goes to `out`, which a refusal leaves as it was. What it needs is 12 bytes for each record and 12 for
 * the trailer; less is refused with 28. Room of first_count + second_count bytes is enough for every pair.
 * Definition: merge_files first second out, boards/specs/Merging. */
struct besklaun_merged besklaun_merge(const uint8_t *first, size_t first_count,
                                      const uint8_t *second, size_t second_count,
                                      uint8_t *out, size_t out_count);

/* Running such a file (docs/BOARDS.md) on record 0 of a bench that is set up for it and then gone: its records one by
 * one, an SC's value in all w words, up to the first refusal. */

struct besklaun_board_run {
    uint8_t number; /* 0 at `end`, or the C of `refused C E`: 1, 2, 4 to 7, 14, 25 or 26 */
    size_t done;    /* the commands done */
    size_t written; /* the bytes written, from the first on; the bytes after them stay */
};

/* A set-up for n processes and w words with `initial` in each, then the file; the listing goes to `listing`. With less
 * than 744 bytes of room left before a command the run is refused with 14; at the start nothing is written then.
 * A file may have more than 60,000 records. Room of file_count + 744 bytes is enough for every file: the records of a
 * call are more bytes than the line of its answer (tested, not proved).
 * Definition: board_run n w initial file listing, besklaun/specs/BoardRuns and board_listing/specs/BoardListing. */
struct besklaun_board_run besklaun_run_board(size_t n, size_t w, uint32_t initial,
                                             const uint8_t *file, size_t file_count,
                                             uint8_t *listing, size_t listing_count);

/* A station that the caller holds as one list of numbers. The list is the state: to look at it, copy it, compare it or
 * go back to it needs no call. It may hold any numbers: one that is too large for its field is out of its range like any
 * other. Of a list that is short each missing number counts as 0. */

/* Where each number stands; what a start place has, one after another. */
#define BESKLAUN_HELD_N 0
#define BESKLAUN_HELD_W 1
#define BESKLAUN_HELD_R 2
/* process p: line (0 idle, 24 the words of line 7, 25 and 26 VL(X) of lines 12 and 14), word place in halves, count of
 * own steps, the record of its open call, b, c, d, e */
#define BESKLAUN_HELD_CALL(p) (3 + 8 * (size_t)(p))
/* record j: X's buffer, its sequence number, its links (bit p is the link of process p) */
#define BESKLAUN_HELD_RECORD(j) (131 + 179 * (size_t)(j))
/* Bank[i] of record j: buffer, links */
#define BESKLAUN_HELD_BANK(j, i) (134 + 179 * (size_t)(j) + 2 * (size_t)(i))
/* Help[p] of record j: flag, buffer, links */
#define BESKLAUN_HELD_HELP(j, p) (198 + 179 * (size_t)(j) + 3 * (size_t)(p))
/* what process p holds of record j: mybuf, x's buffer, its sequence number, the mark of an answered LL (0 for none) */
#define BESKLAUN_HELD_HOLDING(j, p) (246 + 179 * (size_t)(j) + 4 * (size_t)(p))
/* the words of r records, in rows of w: the 3n buffers of record 0, of record 1 and so on, n return areas, n offer areas */
#define BESKLAUN_HELD_WORDS(r) (131 + 179 * (size_t)(r))
/* how many numbers a station needs */
#define BESKLAUN_HELD_COUNT(n, w, r) (BESKLAUN_HELD_WORDS(r) + (3 * (size_t)(r) + 2) * (size_t)(n) * (size_t)(w))

/* A set-up for n processes, w words and r records with the given value of w words. It returns 0, or the number of the
 * refusal, 1, 2, 23, 3 or 8, which leaves every number. What n, w and r do not need stays.
 * Definition: SetUpDone, held_model/specs/HeldCommand, by station_set_up of station/specs/StationSetUp. */
uint8_t besklaun_held_set_up(uint64_t *held, size_t held_count, size_t n, size_t w, size_t r,
                             const uint64_t *value, size_t value_count);

struct besklaun_told {
    uint8_t number; /* 0, or the cause of a refusal, which leaves every number: 1 to 9, 23 or 24 */
    uint8_t kind;   /* of the call that was answered: 1 an LL, 2 an SC, 3 a VL; 0 for none */
    bool truth;     /* what an SC or a VL answered */
    size_t count;   /* the call's own steps */
    size_t at;      /* an LL's words: held[at], .., held[at + words - 1] */
    size_t words;
};

/* A command to a process. The order is 1 to start an LL, 2 an SC, 3 a VL; every other number is a step. A start names
 * its record; an SC brings w words, else they are not looked at. Row 9 is looked at over the whole list.
 * Definition: Commanded, held_model/specs/HeldCommand, by station_command of station/specs/StationCommand. */
struct besklaun_told besklaun_held_command(uint64_t *held, size_t held_count, size_t process, uint8_t order,
                                           size_t record, const uint64_t *value, size_t value_count);

/* The same, but row 9 is looked at only for what the command reads, so that its time does not grow with n and r. On
 * every list that only a set-up and commands have written it is that command.
 * Definition: SteppedTo, held_model/specs/HeldCommand; proved so: step_is_command, held_laws/proofs/Theorems. */
struct besklaun_told besklaun_held_step(uint64_t *held, size_t held_count, size_t process, uint8_t order,
                                        size_t record, const uint64_t *value, size_t value_count);

/* Where each of the 3n buffers of a record is: places[b] is i where buffer b is kept at the sequence number i (by
 * Bank[i], or by X where i is its own), and 2n + p where process p owns it; 3n where neither is so, which never is on a
 * list that only a set-up and commands have written. place_count is 3n or more; the places behind stay. It returns 0, or
 * the number of the refusal, 1, 2, 23, 3, 9 or 24, which leaves all places.
 * Definition: HoldersTold, held_buffers/specs/Places. */
uint8_t besklaun_held_places(const uint64_t *held, size_t held_count, size_t record,
                             uint64_t *places, size_t place_count);

/* A turn of process 0 or 1 (docs/INTERLEAVINGS.md), whose list has `left` calls: the first of them has this kind (1 an LL, 2
 * an SC, every other number a VL), names the record and brings an SC's w words. A busy process steps; an idle one starts
 * that call, which leaves the list even if it is refused, or passes where the list is empty. */
struct besklaun_turned {
    struct besklaun_told told; /* what the command told; number is 22 for another process, first of all, then row 9 and those
                                * before it, for a pass too */
    bool passed;               /* whether it passed; then `told` has all 0 */
    size_t left;               /* the calls left on the list */
};

/* A refusal and a pass leave every number. Row 9 is looked at over the whole list.
 * Definition: TurnDone, held_turns/specs/TurnTold, by turn_of of turns_model/specs/Turns. */
struct besklaun_turned besklaun_turn(uint64_t *held, size_t held_count, size_t process, uint8_t kind, size_t record,
                                     size_t left, const uint64_t *value, size_t value_count);

/* The state that the first entries of a schedule text leave, an entry being a line of its trace. */
struct besklaun_held_run {
    uint8_t number;                 /* 0 at the text's end, or the cause that ended the run */
    size_t entries;                 /* the commands carried out */
    struct besklaun_text_stop stop; /* the item of the entry that was not carried out, where there is one */
};

/* The list is set up for the text's N and W and one record, and the text's first `entries` commands are carried out, or as
 * many as come before its end or before one that is refused. Where more commands follow, the number is 12, entries is
 * as asked, and the stop is at the item of the next. No listing is written, so that no run is refused with 14.
 * Before its set-up a run is refused with 12 for a text over 16,384 bytes, 10, 11, 1, 2, or 3 for too short a list, and
 * the list then stands for the same memory. It takes less than 640 KiB of stack.
 * Definition: StateTold, besklaun/specs/HeldTexts, by first_run of held_text_model/specs/States; that this is the memory
 * after the run's first commands: every_first_state, held_text_model/proofs/FirstStateLaws. */
struct besklaun_held_run besklaun_held_text(uint64_t *held, size_t held_count, const uint8_t *text, size_t text_count,
                                            size_t entries);

struct besklaun_file_run {
    uint8_t number; /* 0, or the cause of the refusal that ended it */
    size_t done;    /* the commands done; where it is 0 every number stays */
};

/* A board's trace file (docs/BOARDS.md) run on record 0 of the station: its records one by one, an SC's value in all w words,
 * up to the first refusal. It makes no set-up. 25 and 26 come before the first command.
 * Definition: FileDone, held_boards/specs/FileDone, by run_file of board_commands/specs/BoardRun. */
struct besklaun_file_run besklaun_held_run_board(uint64_t *held, size_t held_count, const uint8_t *file, size_t file_count);

/* Moir's bench (docs/NOTATION.md) that the caller holds as one list of numbers, as above. */

/* Where each number stands; what a start place has, one after another. */
#define BESKLAUN_MOIR_N 0
#define BESKLAUN_MOIR_W 1
/* the header: tag, process */
#define BESKLAUN_MOIR_HEADER 2
/* the tag of segment k */
#define BESKLAUN_MOIR_TAG(k) (4 + (size_t)(k))
/* process p: line (0 idle, Figure 6's, and 20 more in the Copy of an SC), word place, count of own steps, the mark of an
 * answered WLL (0 for none), the tag that it keeps; x, oldhdr, newhdr, h (tag, process); y, z (tag, word) */
#define BESKLAUN_MOIR_PROCESS(p) (68 + 17 * (size_t)(p))
/* the words, in rows of w: n of the array A, the segments, n return areas, n offer areas */
#define BESKLAUN_MOIR_WORDS 340
/* how many numbers it needs */
#define BESKLAUN_MOIR_COUNT(n, w) (BESKLAUN_MOIR_WORDS + (3 * (size_t)(n) + 1) * (size_t)(w))

/* A set-up for n processes and w words with the given value of w words. It returns 0, or the number of the refusal, 1, 2,
 * 3 or 8, which leaves every number. What n and w do not need stays.
 * Definition: SetUpDone, moir_held_model/specs/HeldCommand, by set_up of moir_model/specs/SetUp. */
uint8_t besklaun_moir_set_up(uint64_t *held, size_t held_count, size_t n, size_t w,
                             const uint64_t *value, size_t value_count);

struct besklaun_moir_told {
    uint8_t number; /* 0, or the cause of a refusal, which leaves every number: 1 to 9 */
    uint8_t kind;   /* of the call that was answered: 1 a WLL with words, 2 an SC, 3 a VL, 4 a WLL that names a process; 0
                     * for none */
    bool truth;     /* what an SC or a VL answered */
    uint8_t named;  /* the process that a WLL names */
    size_t count;   /* the call's own steps */
    size_t at;      /* a WLL's words: held[at], .., held[at + words - 1] */
    size_t words;
};

/* A command to a process. The order is 1 to start a WLL, 2 an SC, 3 a VL; every other number is a step. An SC brings w
 * words, else they are not looked at. Row 9 is looked at over the whole list; a tag above 65,535 is out of its range.
 * Definition: Commanded, moir_held_model/specs/HeldCommand, by command of moir_model/specs/Command. */
struct besklaun_moir_told besklaun_moir_command(uint64_t *held, size_t held_count, size_t process, uint8_t order,
                                                const uint64_t *value, size_t value_count);

/* The same, but row 9 is looked at only for what the command reads. On every list that only a set-up and commands have
 * written it is that command.
 * Definition: SteppedTo, moir_held_model/specs/HeldCommand; proved so: step_is_command, moir_held_laws/proofs/Theorems. */
struct besklaun_moir_told besklaun_moir_step(uint64_t *held, size_t held_count, size_t process, uint8_t order,
                                             const uint64_t *value, size_t value_count);

#ifdef __cplusplus
}
#endif

#endif
