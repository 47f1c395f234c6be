/* A list of commands to a station (tests/witness/README.md, "Stations") from standard input, carried out on a list of
 * numbers, every second command by the step; the replies and all memory to standard output, as `witness station-replies`
 * prints them. A held list has numbers for sixteen processes, so where fewer than N are lent it lends no words instead.
 */
#include <inttypes.h>
#include <stdio.h>
#include <stdlib.h>

#include "besklaun.h"

#define MOST_WORDS 60000

static uint64_t held[BESKLAUN_HELD_WORDS(9) + MOST_WORDS];

static bool number(uint64_t *to)
{
    return scanf("%" SCNu64, to) == 1;
}

static uint64_t asked(void)
{
    uint64_t it;
    if (!number(&it)) {
        fprintf(stderr, "station: the list ends too early\n");
        exit(2);
    }
    return it;
}

static size_t words_of(uint64_t *words)
{
    size_t count = (size_t)asked();
    if (count > 128) {
        fprintf(stderr, "station: %zu words\n", count);
        exit(2);
    }
    for (size_t k = 0; k < count; k++) {
        words[k] = asked();
    }
    return count;
}

static void line(const uint64_t *from, size_t count)
{
    for (size_t k = 0; k < count; k++) {
        printf(k ? " %" PRIu64 : "%" PRIu64, from[k]);
    }
    putchar('\n');
}

static void reply(struct besklaun_told told)
{
    if (told.number) {
        printf("refused %u\n", (unsigned)told.number);
    } else if (told.kind == 1) {
        printf("LL %zu ", told.count);
        line(held + told.at, told.words);
    } else if (told.kind) {
        printf("%s %u %zu\n", told.kind == 2 ? "SC" : "VL", (unsigned)told.truth, told.count);
    } else {
        puts("accepted");
    }
}

/* Figure 2's line: both accesses of 7, 12 and 14 have its number in the listing of the memory. */
static uint64_t line_of_figure_2(uint64_t line)
{
    return line == 24 ? 7 : line == 25 ? 12 : line == 26 ? 14 : line;
}

static void process(size_t p, size_t r)
{
    const uint64_t *call = held + BESKLAUN_HELD_CALL(p);
    uint64_t once[8] = {call[3], line_of_figure_2(call[0]), call[1], call[2], call[4], call[5], call[6], call[7]};
    line(once, 8);
    for (size_t j = 0; j < r; j++) {
        line(held + BESKLAUN_HELD_HOLDING(j, p), 4);
    }
}

static void memory(void)
{
    size_t n = (size_t)held[BESKLAUN_HELD_N], w = (size_t)held[BESKLAUN_HELD_W], r = (size_t)held[BESKLAUN_HELD_R];
    for (size_t j = 0; j < r; j++) {
        line(held + BESKLAUN_HELD_RECORD(j), 3);
        for (size_t i = 0; i < 2 * n; i++) {
            line(held + BESKLAUN_HELD_BANK(j, i), 2);
        }
        for (size_t p = 0; p < n; p++) {
            line(held + BESKLAUN_HELD_HELP(j, p), 3);
        }
    }
    for (size_t p = 0; p < n; p++) {
        process(p, r);
    }
    for (size_t row = 0; row < (3 * r + 2) * n; row++) {
        line(held + BESKLAUN_HELD_WORDS(r) + row * w, w);
    }
}

int main(void)
{
    uint64_t value[128], process_number;
    size_t n = (size_t)asked(), w = (size_t)asked(), r = (size_t)asked();
    size_t processes = (size_t)asked(), words = (size_t)asked();
    size_t count = words_of(value);
    words = processes < n ? 0 : words < MOST_WORDS ? words : MOST_WORDS;
    size_t held_count = BESKLAUN_HELD_WORDS(r < 9 ? r : 9) + words;
    for (size_t k = 0; k < held_count; k++) {
        held[k] = UINT64_MAX - k;
    }
    uint8_t refused = besklaun_held_set_up(held, held_count, n, w, r, value, count);
    if (refused) {
        printf("refused %u\n", (unsigned)refused);
        return 0;
    }
    puts("accepted");
    for (bool near = true; number(&process_number); near = !near) {
        uint8_t order = (uint8_t)asked();
        size_t record = (size_t)asked();
        count = words_of(value);
        reply((near ? besklaun_held_step : besklaun_held_command)(held, held_count, (size_t)process_number, order, record,
                                                                  value, count));
    }
    memory();
    return 0;
}
