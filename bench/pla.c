/* Table of a PLA panel beside plain C that sets the rows of each cube in the tables of its outputs, one row after another, and
 * examines nothing. For each number of inputs and each size of text a line: inputs, bytes, cubes, nanoseconds of Table, of the plain
 * C, and the ratio. Texts are random, of 4 outputs, and as long as the size allows; the digits of both are compared. Times are
 * processor time, the best of five batches. */
#define _POSIX_C_SOURCE 200809L
#include "cellmapper.h"
#include "batches.h"

#include <stdio.h>
#include <stdlib.h>
#include <string.h>

enum { OUTPUTS = 4 };

static char pla[CELLMAPPER_MAX_PLA + 1];
static size_t pla_len, inputs, cubes, first;
static const char board[] = "(bound a)\n(limit 0)\n";
static uint8_t digits[CELLMAPPER_MAX_TABLE], plain_digits[CELLMAPPER_MAX_TABLE];
static volatile unsigned kept;
static unsigned long state = 1;

static unsigned below(unsigned n)
{
    state = state * 6364136223846793005ul + 1442695040888963407ul;
    return (unsigned)(state >> 33) % n;
}

/* A text of at most so many bytes. */
static void make(size_t n, size_t bytes)
{
    size_t width = n + 1 + OUTPUTS + 1, i, k;
    inputs = n;
    cubes = (bytes - 100) / width;
    pla_len = (size_t)sprintf(pla, ".i %zu\n.o %d\n.ilb", n, OUTPUTS);
    for (i = 0; i < n; i++)
        pla_len += (size_t)sprintf(pla + pla_len, " %c", (char)('a' + i));
    pla_len += (size_t)sprintf(pla + pla_len, "\n.ob w x y z\n.p %zu\n", cubes);
    first = pla_len;
    for (k = 0; k < cubes; k++) {
        for (i = 0; i < n; i++)
            pla[pla_len++] = "001-"[below(4)];
        pla[pla_len++] = ' ';
        for (i = 0; i < OUTPUTS; i++)
            pla[pla_len++] = "01"[below(2)];
        pla[pla_len++] = '\n';
    }
    pla_len += (size_t)sprintf(pla + pla_len, ".e\n");
}

static void table(void)
{
    size_t line, written;
    kept += cellmapper_pla_table((const uint8_t *)pla, pla_len, (const uint8_t *)board, sizeof board - 1, 0, digits, sizeof digits, &line, &written);
}

static void plain(void)
{
    static uint8_t tables[OUTPUTS][CELLMAPPER_MAX_TABLE];
    size_t width = inputs + 1 + OUTPUTS + 1, rows = (size_t)1 << inputs, r, k, i, o;
    memset(tables, '0', sizeof tables);
    for (k = 0; k < cubes; k++) {
        const char *cube = pla + first + k * width;
        size_t asked = 0, value = 0;
        for (i = 0; i < inputs; i++) {
            asked = asked << 1 | (cube[i] != '-');
            value = value << 1 | (cube[i] == '1');
        }
        for (o = 0; o < OUTPUTS; o++)
            if (cube[inputs + 1 + o] == '1')
                for (r = 0; r < rows; r++)
                    if ((r & asked) == value)
                        tables[o][r] = '1';
    }
    memcpy(plain_digits, tables[0], rows);
}

int main(void)
{
    static const size_t numbers[] = {5, 8, 10}, sizes[] = {4096, 8192, 16384, CELLMAPPER_MAX_PLA};
    for (size_t i = 0; i < sizeof numbers / sizeof *numbers; i++)
        for (size_t j = 0; j < sizeof sizes / sizeof *sizes; j++) {
            make(numbers[i], sizes[j]);
            table();
            plain();
            if (memcmp(digits, plain_digits, (size_t)1 << inputs) != 0) {
                fprintf(stderr, "pla: the digits differ\n");
                return 1;
            }
            double here = time_of(table), there = time_of(plain);
            printf("%zu %zu %zu %.0f %.0f %.2f\n", inputs, pla_len, cubes, here, there, here / there);
            fflush(stdout);
        }
    return 0;
}
