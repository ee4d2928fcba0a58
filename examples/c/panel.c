/* Reads one design sheet, prints the table of each output, its network, the network in BLIF, and what Check says to the network
 * before and after one of its digits is turned. Of a sheet that Map refuses it prints the line at fault, or which outputs are the
 * cause of refusal 8. */
#include "cellmapper.h"

#include <stdio.h>
#include <string.h>

static uint8_t sheet[CELLMAPPER_MAX_SHEET + 1]; /* a byte more, to see that a sheet is too long */
static uint8_t network[CELLMAPPER_MAX_NETWORK];
static uint8_t table[CELLMAPPER_MAX_TABLE];
static uint8_t blif[CELLMAPPER_MAX_BLIF];

static void print_tables(size_t sheet_len)
{
    size_t output, line, written;

    for (output = 0; cellmapper_table(sheet, sheet_len, output, table, sizeof table, &line, &written) == CELLMAPPER_OK; output++)
        printf("output %zu: %.*s\n", output, (int)written, (const char *)table);
}

static int print_blif(size_t sheet_len, size_t network_len)
{
    size_t line, length;
    uint32_t number = cellmapper_export(sheet, sheet_len, network, network_len, blif, sizeof blif, &line, &length);

    printf("%zu bytes in BLIF:\n%.*s", length, (int)length, (const char *)blif);
    return number == CELLMAPPER_OK;
}

static int print_check(const char *what, size_t sheet_len, size_t network_len)
{
    size_t line, differs, output, row;
    uint32_t number = cellmapper_check(sheet, sheet_len, network, network_len, &line, &differs, &output, &row);

    if (number != CELLMAPPER_OK)
        printf("%s: refused %u line %zu\n", what, (unsigned)number, line);
    else if (differs)
        printf("%s: differs, output %zu row %zu\n", what, output, row);
    else
        printf("%s: same\n", what);
    return number == CELLMAPPER_OK && !differs;
}

static void print_refusal(size_t sheet_len, uint32_t number, size_t line)
{
    size_t second, start, length, outputs, output;

    printf("refused %u line %zu\n", (unsigned)number, line);
    cellmapper_line(sheet, sheet_len, NULL, 0, number, line, &second, &start, &length);
    if (length > 0)
        printf("%.*s\n", (int)length, (const char *)sheet + start);
    cellmapper_cause(sheet, sheet_len, &outputs);
    for (output = 0; outputs >> output != 0; output++)
        if (outputs >> output & 1)
            printf("output %zu is among the cause\n", output);
}

int main(int argc, char **argv)
{
    size_t sheet_len, line, cells, length;
    uint32_t number;
    uint8_t *digit;
    FILE *file = argc == 2 ? fopen(argv[1], "rb") : NULL;

    if (file == NULL) {
        fprintf(stderr, "usage: panel DESIGN-SHEET\n");
        return 2;
    }
    sheet_len = fread(sheet, 1, sizeof sheet, file);
    fclose(file);

    print_tables(sheet_len);
    number = cellmapper_map(sheet, sheet_len, network, sizeof network, &line, &cells, &length);
    if (number != CELLMAPPER_OK) {
        print_refusal(sheet_len, number, line);
        return 0;
    }
    printf("%zu cells, %zu bytes:\n%.*s", cells, length, (int)length, (const char *)network);
    if (!print_blif(sheet_len, length) || !print_check("Map's network", sheet_len, length))
        return 1;

    /* the last digit of the last node stands before ")\n(count U)\n(end)\n"; where no vertex leads to it, turning it does
     * no harm */
    digit = network + length - strlen(")\n(count 0)\n(end)\n") - 1;
    *digit = *digit == '0' ? '1' : '0';
    print_check("with one digit turned", sheet_len, length);
    return 0;
}
