/* cause SHEET..: for each sheet that Map refuses by 8 a line: name, outputs, the cause as the numbers of its outputs, nanoseconds of a
 * call of cellmapper_cause, of a call of Map, of calls of Map on the sheets with each set of the outputs but the empty one, and of
 * those that must be asked: the whole, and each set in order up to the cause. Map on a sheet that it does not refuse goes on to the
 * first network, which the cause does not need. The cause must be the first set in order that Map refuses by 8. Times are processor
 * time, the best of several batches. */
#define _POSIX_C_SOURCE 200809L
#include "cellmapper.h"
#include "batches.h"

#include <stdio.h>
#include <stdlib.h>
#include <string.h>

enum { HEAD = 4, MAX_OUTPUTS = 4 };

static uint8_t whole[CELLMAPPER_MAX_SHEET + 1], sheet[CELLMAPPER_MAX_SHEET + 1], network[CELLMAPPER_MAX_NETWORK];
static size_t whole_len, sheet_len;
static volatile size_t kept;

static void fail(const char *what, const char *name)
{
    fprintf(stderr, "cause: %s: %s\n", name, what);
    exit(1);
}

static void load(const char *path)
{
    FILE *file = fopen(path, "rb");
    if (file == NULL)
        fail("cannot be read", path);
    whole_len = fread(whole, 1, sizeof whole, file);
    fclose(file);
}

/* The sheet with the lines of some outputs alone; returns how many outputs the whole one has. */
static size_t choose(size_t set)
{
    size_t line = 0, at = 0;
    sheet_len = 0;
    for (; at < whole_len; line++) {
        size_t length = (size_t)((uint8_t *)memchr(whole + at, '\n', whole_len - at) - (whole + at)) + 1;
        if (line < HEAD || at + length == whole_len || set >> (line - HEAD) & 1) {
            memcpy(sheet + sheet_len, whole + at, length);
            sheet_len += length;
        }
        at += length;
    }
    return line - HEAD - 1;
}

static uint32_t refused(void)
{
    size_t line, cells, length;
    return cellmapper_map(sheet, sheet_len, network, sizeof network, &line, &cells, &length);
}

static void map(void)
{
    kept += refused();
}

static void cause(void)
{
    size_t outputs;
    cellmapper_cause(sheet, sheet_len, &outputs);
    kept += outputs;
}

/* Whether a set is asked before another: it has fewer outputs, or as many and the lowest that only one of them has. */
static int before(size_t a, size_t b)
{
    size_t apart = a ^ b;
    int of_a = __builtin_popcountl(a), of_b = __builtin_popcountl(b);
    return of_a != of_b ? of_a < of_b : (a & apart & (~apart + 1)) != 0;
}

static void time_cause(const char *path)
{
    double of_cause, of_map, of_all = 0, of_asked = 0;
    size_t outputs, said, set, o;
    load(path);
    outputs = choose(SIZE_MAX);
    if (outputs > MAX_OUTPUTS || refused() != 8)
        return;
    cellmapper_cause(sheet, sheet_len, &said);
    of_cause = time_of(cause);
    of_map = time_of(map);
    for (set = 1; set < (size_t)1 << outputs; set++) {
        double spent;
        uint32_t number;
        choose(set);
        number = refused();
        if (set == said ? number != 8 : number == 8 && before(set, said))
            fail("Map does not agree with the cause", path);
        spent = time_of(map);
        of_all += spent;
        if (!before(said, set) || set + 1 == (size_t)1 << outputs)
            of_asked += spent;
    }
    printf("%s %zu ", path, outputs);
    for (o = 0; o < outputs; o++)
        if (said >> o & 1)
            printf("%zu", o);
    printf(" %.0f %.0f %.0f %.0f\n", of_cause, of_map, of_all, of_asked);
    fflush(stdout);
}

int main(int argc, char **argv)
{
    int i;
    for (i = 1; i < argc; i++)
        time_cause(argv[i]);
    return 0;
}
