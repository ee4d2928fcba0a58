/* timing map SHEET..: for each sheet a line: name, cells or `refused N`, nanoseconds of a call of Map, nanoseconds of reading
 * the sheet alone.
 * timing large SHEET..: for each sheet a line: name, nanoseconds of Table of the last output, of the same in plain C, of
 * Check on Map's network, of the same in plain C, and of Export of that network. The answers of Table and Check are compared
 * with those of the plain C.
 * Last comes a line `peak` with the most memory that the process had, in KiB. Times are processor time, the best of several
 * batches.
 * timing once SHEET: calls Map once and writes the network, for a program that counts instructions.
 * timing wide SHEET: nanoseconds of a call of Map, and of one with a buffer of no bytes, which is refused once the length of the
 * network is known. */
#define _POSIX_C_SOURCE 200809L
#include "cellmapper.h"
#include "batches.h"
#include "plain.h"

#include <stdio.h>
#include <stdlib.h>
#include <string.h>

static uint8_t sheet[CELLMAPPER_MAX_SHEET + 1], network[CELLMAPPER_MAX_NETWORK], table[CELLMAPPER_MAX_TABLE];
static uint8_t text[CELLMAPPER_MAX_BLIF];
static char plain[CELLMAPPER_MAX_TABLE];
static size_t sheet_len, network_len, outputs;
static volatile int kept;

static void fail(const char *what, const char *name)
{
    fprintf(stderr, "timing: %s: %s\n", name, what);
    exit(1);
}

static void load(const char *path)
{
    FILE *file = fopen(path, "rb");
    if (file == NULL)
        fail("cannot be read", path);
    sheet_len = fread(sheet, 1, sizeof sheet, file);
    fclose(file);
}

/* ---- what is timed */

static void map(void)
{
    size_t line, cells, length;
    kept += (int)cellmapper_map(sheet, sheet_len, network, sizeof network, &line, &cells, &length);
}

static void map_unwritten(void)
{
    size_t line, cells, length;
    kept += (int)cellmapper_map(sheet, sheet_len, network, 0, &line, &cells, &length);
}

static void read_only(void)
{
    size_t line, written;
    kept += (int)cellmapper_table(sheet, sheet_len, SIZE_MAX, table, sizeof table, &line, &written);
}

static void table_here(void)
{
    size_t line, written;
    kept += (int)cellmapper_table(sheet, sheet_len, outputs - 1, table, sizeof table, &line, &written);
}

static void table_plain(void)
{
    kept += plain_table((const char *)sheet, sheet_len, (int)outputs - 1, plain);
}

static void check_here(void)
{
    size_t line, differs, output, row;
    kept += (int)cellmapper_check(sheet, sheet_len, network, network_len, &line, &differs, &output, &row);
}

static void check_plain(void)
{
    int output, row;
    kept += plain_check((const char *)sheet, sheet_len, (const char *)network, network_len, &output, &row);
}

static void export_here(void)
{
    size_t line, length;
    if (cellmapper_export(sheet, sheet_len, network, network_len, text, sizeof text, &line, &length) != 0)
        fail("is not exported", "network");
}

static void time_map(const char *path)
{
    size_t line, cells, length;
    uint32_t number;
    load(path);
    number = cellmapper_map(sheet, sheet_len, network, sizeof network, &line, &cells, &length);
    printf("%s %s%zu", path, number ? "refused-" : "", number ? (size_t)number : cells);
    printf(" %.0f %.0f\n", time_of(map), time_of(read_only));
    fflush(stdout);
}

static void time_large(const char *path)
{
    size_t line, cells, written, differs, output, row;
    int a, b;
    load(path);
    for (outputs = 0; cellmapper_table(sheet, sheet_len, outputs, table, sizeof table, &line, &written) == 0; outputs++)
        ;
    if (outputs == 0 || cellmapper_map(sheet, sheet_len, network, sizeof network, &line, &cells, &network_len) != 0)
        fail("is refused", path);
    table_here();
    table_plain();
    if (memcmp(table, plain, CELLMAPPER_MAX_TABLE) != 0)
        fail("the two tables differ", path);
    cellmapper_check(sheet, sheet_len, network, network_len, &line, &differs, &output, &row);
    if (differs || plain_check((const char *)sheet, sheet_len, (const char *)network, network_len, &a, &b) != 1)
        fail("the two checks differ", path);
    printf("%s %.0f %.0f %.0f %.0f %.0f\n", path, time_of(table_here), time_of(table_plain), time_of(check_here), time_of(check_plain),
           time_of(export_here));
    fflush(stdout);
}

static void print_peak(void)
{
    char line[256];
    FILE *file = fopen("/proc/self/status", "r");
    while (file != NULL && fgets(line, sizeof line, file) != NULL)
        if (strncmp(line, "VmHWM:", 6) == 0)
            printf("peak %ld\n", strtol(line + 6, NULL, 10));
    if (file != NULL)
        fclose(file);
}

static void map_once(const char *path)
{
    size_t line, cells;
    load(path);
    if (cellmapper_map(sheet, sheet_len, network, sizeof network, &line, &cells, &network_len) != 0)
        fail("is refused", path);
    fwrite(network, 1, network_len, stdout);
}

int main(int argc, char **argv)
{
    int i;
    if (argc == 3 && strcmp(argv[1], "once") == 0) {
        map_once(argv[2]);
        return 0;
    }
    if (argc == 3 && strcmp(argv[1], "wide") == 0) {
        load(argv[2]);
        printf("%.0f %.0f\n", time_of(map), time_of(map_unwritten));
        return 0;
    }
    for (i = 2; i < argc; i++)
        (strcmp(argv[1], "map") == 0 ? time_map : time_large)(argv[i]);
    print_peak();
    return 0;
}
