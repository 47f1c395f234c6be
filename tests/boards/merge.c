/* merge FIRST SECOND OUT ROOM: merges two files from C into so much room, prints the number and the bytes written, and
 * writes the result to OUT where there is one. Status 2 where bytes changed that should have stayed, or a file can't be
 * read or written. */
#include <stdio.h>
#include <stdlib.h>
#include <string.h>

#include "besklaun.h"

/* Room that no result needs is not asked of the machine. */
enum { MOST_ROOM = 40000000, BEYOND = 64, BEFORE = 0xa5 };

static int trouble(const char *what)
{
    fprintf(stderr, "merge: %s\n", what);
    return 2;
}

static uint8_t *bytes_of(const char *path, size_t *count)
{
    FILE *file = fopen(path, "rb");
    if (file == NULL || fseek(file, 0, SEEK_END) != 0) {
        return NULL;
    }
    *count = (size_t)ftell(file);
    rewind(file);
    uint8_t *bytes = malloc(*count + 1);
    if (bytes == NULL || fread(bytes, 1, *count, file) != *count) {
        return NULL;
    }
    fclose(file);
    return bytes;
}

static bool stay(const uint8_t *from, const uint8_t *to)
{
    while (from < to) {
        if (*from++ != BEFORE) {
            return false;
        }
    }
    return true;
}

int main(int count, char **given)
{
    if (count != 5) {
        return trouble("FIRST SECOND OUT ROOM are needed");
    }
    size_t first_count, second_count;
    uint8_t *first = bytes_of(given[1], &first_count);
    uint8_t *second = bytes_of(given[2], &second_count);
    unsigned long long asked = strtoull(given[4], NULL, 10);
    size_t room = asked < MOST_ROOM ? (size_t)asked : MOST_ROOM;
    uint8_t *out = malloc(room + BEYOND);
    if (first == NULL || second == NULL || out == NULL) {
        return trouble("no file, or no memory");
    }
    memset(out, BEFORE, room + BEYOND);
    struct besklaun_merged said = besklaun_merge(first, first_count, second, second_count, out, room);
    if (said.written > room || !stay(out + said.written, out + room + BEYOND)) {
        return trouble("bytes changed that should have stayed");
    }
    printf("%u %zu\n", said.number, said.written);
    if (said.number != 0) {
        return 0;
    }
    FILE *file = fopen(given[3], "wb");
    if (file == NULL || fwrite(out, 1, said.written, file) != said.written || fclose(file) != 0) {
        return trouble("OUT can't be written");
    }
    return 0;
}
