/* Reads a design sheet from standard input and prints the digits of each output, one output a line. */
#include "cellmapper.h"

#include <stdio.h>

int main(void)
{
    static uint8_t sheet[CELLMAPPER_MAX_SHEET + 1], digits[CELLMAPPER_MAX_TABLE];
    size_t sheet_len = fread(sheet, 1, sizeof sheet, stdin), line, written;

    for (size_t output = 0; cellmapper_table(sheet, sheet_len, output, digits, sizeof digits, &line, &written) == 0; output++)
        printf("%.*s\n", (int)written, (const char *)digits);
    return 0;
}
