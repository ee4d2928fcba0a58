/* table SHEET, or table PLA BOARD: the digits of each output of a design sheet, or of a PLA text with its second text, one output a
 * line; or `refused N line L`. */
#include "cellmapper.h"

#include <stdio.h>
#include <stdlib.h>

static uint8_t texts[2][CELLMAPPER_MAX_PLA + 1], digits[CELLMAPPER_MAX_TABLE];
static size_t lengths[2];

static void load(int number, const char *path)
{
    FILE *file = fopen(path, "rb");
    if (file == NULL) {
        perror(path);
        exit(2);
    }
    lengths[number] = fread(texts[number], 1, sizeof *texts, file);
    fclose(file);
}

int main(int count, char **paths)
{
    size_t line, written;

    if (count != 2 && count != 3)
        return 2;
    for (int i = 1; i < count; i++)
        load(i - 1, paths[i]);
    for (size_t output = 0;; output++) {
        uint32_t number = count == 2
            ? cellmapper_table(texts[0], lengths[0], output, digits, sizeof digits, &line, &written)
            : cellmapper_pla_table(texts[0], lengths[0], texts[1], lengths[1], output, digits, sizeof digits, &line, &written);
        if (number == 6)
            return 0;
        if (number != 0) {
            printf("refused %u line %zu\n", (unsigned)number, line);
            return 0;
        }
        printf("%.*s\n", (int)written, (const char *)digits);
    }
}
