/* stack SHEET..: the most stack that a call of Table, Map, Check, Export, the cause of refusal 8 and the line of a refusal takes, on
 * texts made here and on the sheets named, which are tried as PLA texts too; a line for each operation, with the text that takes the
 * most. Fails where a call takes more than LIMIT.
 *
 * Each call runs in a thread of its own on a stack that was filled with a pattern; what it takes is from where the thread
 * calls it down to the lowest byte that no longer has the pattern. */
#define _GNU_SOURCE
#include "cellmapper.h"

#include <pthread.h>
#include <stdio.h>
#include <stdlib.h>
#include <string.h>
#include <sys/mman.h>

enum { LIMIT = 256 * 1024, ROOM = 4 * 1024 * 1024, PATTERN = 0xA5 };

static unsigned char *stack;
static char sheet[CELLMAPPER_MAX_SHEET + 1], network[CELLMAPPER_MAX_NETWORK];
static char pla[CELLMAPPER_MAX_PLA], board[CELLMAPPER_MAX_SHEET];
static size_t sheet_len, network_len, pla_len, board_len, taken;
static uint8_t digits[CELLMAPPER_MAX_TABLE], written[CELLMAPPER_MAX_NETWORK], blif[CELLMAPPER_MAX_BLIF];

static void fail(const char *what)
{
    fprintf(stderr, "stack: %s\n", what);
    exit(2);
}

/* ---- one call in a thread */

struct operation {
    const char *name;
    void (*call)(void);
    size_t most;
    char text[64];
};

static void table(void)
{
    size_t line, count;
    cellmapper_table((const uint8_t *)sheet, sheet_len, 0, digits, sizeof digits, &line, &count);
}

static void keep_network(uint32_t number, size_t length)
{
    if (number == 0) {
        memcpy(network, written, length);
        network_len = length;
    }
}

static void map(void)
{
    size_t line, cells, length;
    uint32_t number =
        cellmapper_map((const uint8_t *)sheet, sheet_len, written, sizeof written, &line, &cells, &length);
    keep_network(number, length);
}

static void check(void)
{
    size_t line, differs, output, row;
    cellmapper_check((const uint8_t *)sheet, sheet_len, (const uint8_t *)network, network_len, &line, &differs, &output, &row);
}

static void export(void)
{
    size_t line, length;
    cellmapper_export((const uint8_t *)sheet, sheet_len, (const uint8_t *)network, network_len, blif, sizeof blif, &line, &length);
}

static void cause(void)
{
    size_t outputs;
    cellmapper_cause((const uint8_t *)sheet, sheet_len, &outputs);
}

/* the fifth line of either sheet, and one past their ends */
static void line(void)
{
    static const size_t numbers[] = {2, 10}, lines[] = {5, SIZE_MAX};
    size_t second, start, length;
    for (size_t i = 0; i < 4; i++)
        cellmapper_line((const uint8_t *)sheet, sheet_len, (const uint8_t *)network, network_len, numbers[i / 2], lines[i % 2], &second,
                        &start, &length);
}

static void pla_table(void)
{
    size_t line, count;
    cellmapper_pla_table((const uint8_t *)pla, pla_len, (const uint8_t *)board, board_len, 0, digits, sizeof digits, &line, &count);
}

static void pla_map(void)
{
    size_t line, cells, length;
    uint32_t number = cellmapper_pla_map((const uint8_t *)pla, pla_len, (const uint8_t *)board, board_len, written, sizeof written,
                                         &line, &cells, &length);
    keep_network(number, length);
}

static void pla_check(void)
{
    size_t line, differs, output, row;
    cellmapper_pla_check((const uint8_t *)pla, pla_len, (const uint8_t *)board, board_len, (const uint8_t *)network, network_len,
                         &line, &differs, &output, &row);
}

static void pla_cause(void)
{
    size_t outputs;
    cellmapper_pla_cause((const uint8_t *)pla, pla_len, (const uint8_t *)board, board_len, &outputs);
}

/* in this order: Check, Export and the line read the network that Map wrote last; those of PLA texts come last */
enum { OF_SHEETS = 6, OPERATIONS = 10 };

static struct operation operations[OPERATIONS] = {
    {"table", table, 0, ""},
    {"map", map, 0, ""},
    {"check", check, 0, ""},
    {"export", export, 0, ""},
    {"cause", cause, 0, ""},
    {"line", line, 0, ""},
    {"table of PLA", pla_table, 0, ""},
    {"map of PLA", pla_map, 0, ""},
    {"check of PLA", pla_check, 0, ""},
    {"cause of PLA", pla_cause, 0, ""},
};

static void *run(void *operation)
{
    unsigned char here = 0, *low = stack;
    ((struct operation *)operation)->call();
    while (*low == PATTERN)
        low++;
    taken = (size_t)(&here - low);
    return NULL;
}

static void measure(struct operation *operation, const char *text)
{
    pthread_attr_t attributes;
    pthread_t thread;
    memset(stack, PATTERN, ROOM);
    if (pthread_attr_init(&attributes) != 0 || pthread_attr_setstack(&attributes, stack, ROOM) != 0
        || pthread_create(&thread, &attributes, run, operation) != 0 || pthread_join(thread, NULL) != 0)
        fail("no thread");
    pthread_attr_destroy(&attributes);
    if (taken > operation->most) {
        operation->most = taken;
        snprintf(operation->text, sizeof operation->text, "%s", text);
    }
}

static void measure_all(const char *text)
{
    for (size_t i = 0; i < OF_SHEETS; i++)
        measure(&operations[i], text);
}

static void measure_pla(const char *text)
{
    for (size_t i = OF_SHEETS; i < OPERATIONS; i++)
        measure(&operations[i], text);
}

/* ---- texts */

static void put(const char *text)
{
    size_t n = strlen(text);
    if (sheet_len + n > CELLMAPPER_MAX_SHEET)
        fail("a text is too long");
    memcpy(sheet + sheet_len, text, n);
    sheet_len += n;
}

struct nesting {
    const char *name, *open, *close;
};

/* operands nested in the only, the first, the last and a middle place */
static const struct nesting NESTINGS[] = {
    {"not", "(not ", ")"},
    {"and, first", "(and ", " a)"},
    {"or, first", "(or ", " a)"},
    {"xor, first", "(xor ", " a)"},
    {"and, last", "(and a ", ")"},
    {"or, last", "(or a ", ")"},
    {"xor, last", "(xor a ", ")"},
    {"and, middle", "(and a ", " a)"},
    {"xor, fourth", "(xor a 0 1 ", " a)"},
};

static const char *const HEADS[] = {
    "(design 1)\n(in a)\n(bound a)\n(limit 6)\n",
    "(design 1)\n(in a b c d e f g h i j)\n(bound a b c d e)\n(limit 6)\n(out p (xor a f))\n(out q (and b g))\n(out r (or c h))\n",
};

/* The outermost brackets by one nesting and those inside by another, as deep as fits or as asked, closed or left open: past
 * the deepest formula that is allowed the library reads by other functions. */
enum { OUTERMOST = 33 };

static void nest(const struct nesting *outer, const struct nesting *inner, const char *head, size_t deepest, int closed)
{
    const char *last = ")\n(end)\n";
    char text[64];
    size_t depth = 0, need = 0;
    sheet_len = 0;
    put(head);
    put("(out z ");
    size_t room = CELLMAPPER_MAX_SHEET - sheet_len - 1 - strlen(last);
    for (; depth < deepest; depth++) {
        const struct nesting *here = depth < OUTERMOST ? outer : inner;
        need += strlen(here->open) + (closed ? strlen(here->close) : 0);
        if (need > room)
            break;
        put(here->open);
    }
    put("a");
    for (size_t i = depth; closed && i > 0; i--)
        put(i <= OUTERMOST ? outer->close : inner->close);
    put(last);
    snprintf(text, sizeof text, "%zu deep, %s around %s, %s", depth, outer->name, inner->name, closed ? "closed" : "open");
    measure_all(text);
}

static void nested(void)
{
    static const size_t depths[] = {1, 16, 31, 32, 33, 34, 100};
    const size_t nestings = sizeof NESTINGS / sizeof *NESTINGS;
    for (size_t h = 0; h < sizeof HEADS / sizeof *HEADS; h++)
        for (size_t o = 0; o < nestings; o++) {
            for (size_t d = 0; d < sizeof depths / sizeof *depths; d++)
                nest(&NESTINGS[o], &NESTINGS[o], HEADS[h], depths[d], 1);
            for (size_t i = 0; i < nestings; i++) {
                nest(&NESTINGS[o], &NESTINGS[i], HEADS[h], SIZE_MAX, 1);
                nest(&NESTINGS[o], &NESTINGS[i], HEADS[h], SIZE_MAX, 0);
            }
        }
}

/* ---- PLA texts */

static void pla_put(const char *text)
{
    size_t n = strlen(text);
    if (pla_len + n > sizeof pla)
        fail("a PLA text is too long");
    memcpy(pla + pla_len, text, n);
    pla_len += n;
}

static void put_board(const char *text)
{
    board_len = strlen(text);
    memcpy(board, text, board_len);
}

/* the numbers and names of a text: a letter and a number for each input and each output, the outputs longer by so many bytes in all */
static void pla_head(size_t inputs, size_t outputs, size_t cubes, size_t more)
{
    char text[64];
    pla_len = 0;
    snprintf(text, sizeof text, ".i %zu\n.o %zu\n.ilb", inputs, outputs);
    pla_put(text);
    for (size_t i = 0; i < inputs + outputs; i++) {
        if (i == inputs)
            pla_put("\n.ob");
        size_t longer = i < inputs ? 0 : more < 4 ? more : 4;
        more -= longer;
        snprintf(text, sizeof text, " %c%zu%.*s", i < inputs ? 'a' : 'z', i, (int)longer, "xxxx");
        pla_put(text);
    }
    snprintf(text, sizeof text, "\n.p %zu\n", cubes);
    pla_put(text);
}

/* as long as a text may be: as many of one cube as fit, and another one; then the end */
static void pla_of_cubes(size_t inputs, size_t outputs, const char *cube, const char *other, const char *end, const char *name)
{
    size_t one = strlen(cube), room;
    pla_head(inputs, outputs, 1000, 0);
    room = sizeof pla - pla_len - strlen(other) - strlen(end);
    pla_head(inputs, outputs, room / one + 1, room % one);
    for (size_t i = 0; i < room / one; i++)
        pla_put(cube);
    pla_put(other);
    pla_put(end);
    if (pla_len != sizeof pla)
        fail("a PLA text is too short");
    measure_pla(name);
}

static void longest_plas(void)
{
    put_board("(bound a0)\n(limit 6)\n");
    pla_of_cubes(1, 1, "- 0\n", "1 1\n", ".e\n", "short cubes");
    pla_of_cubes(1, 1, "- 0\n", "1 1\n", ".e\n\n", "short cubes and an empty line");
    pla_of_cubes(1, 1, "- 0\n", "1 ~\n", ".e\n", "short cubes, the last with a ~");
    pla_of_cubes(1, 1, "- 0\n", "2 1\n", ".e\n", "short cubes, the last one bad");
    put_board("(bound a0 a1 a2 a3 a4)\n(limit 6)\n");
    pla_of_cubes(10, 4, "1010101010 0101\n", "0101----11 1011\n", ".e\n", "cubes of ten inputs");
    pla_of_cubes(10, 4, "---------- 1111\n", "0101----11 1011\n", ".e\n", "cubes without literals");
    pla_head(5500, 1, 0, 0);
    pla_put(".e\n");
    measure_pla("5,500 inputs");
    pla_head(1, 5500, 0, 0);
    pla_put(".e\n");
    measure_pla("5,500 outputs");
    memset(pla, '\n', sizeof pla);
    pla_len = sizeof pla;
    measure_pla("empty lines");
    memset(pla, '.', sizeof pla);
    measure_pla("one line");
}

/* The panel of the sheet at hand as a PLA text with a cube for each row that is 1 in some output, unless the sheet is refused. */
static int pla_of_sheet(void)
{
    static uint8_t tables[4][CELLMAPPER_MAX_TABLE];
    size_t line, rows = 0, outputs = 0, inputs = 0, cubes = 0;
    char text[64], names[4][16], *lines[4], *at = sheet;
    sheet[sheet_len] = 0;
    while (outputs < 4
           && cellmapper_table((const uint8_t *)sheet, sheet_len, outputs, tables[outputs], sizeof *tables, &line, &rows) == 0)
        outputs++;
    if (outputs == 0)
        return 0;
    cellmapper_table((const uint8_t *)sheet, sheet_len, 0, tables[0], sizeof *tables, &line, &rows);
    for (size_t i = 0; i < 4; i++, at = strchr(at, '\n') + 1)
        lines[i] = at;
    for (size_t i = 0; i < outputs; i++, at = strchr(at, '\n') + 1)
        sscanf(at, "(out %15s", names[i]);
    while ((size_t)1 << inputs < rows)
        inputs++;
    for (size_t row = 0; row < rows; row++)
        for (size_t o = 0; o < outputs; o++)
            if (tables[o][row] == '1') {
                cubes++;
                break;
            }
    pla_len = 0;
    snprintf(text, sizeof text, ".i %zu\n.o %zu\n.ilb", inputs, outputs);
    pla_put(text);
    snprintf(pla + pla_len, sizeof pla - pla_len, "%.*s", (int)(strchr(lines[1], ')') - lines[1] - 3), lines[1] + 3);
    pla_len += strlen(pla + pla_len);
    pla_put("\n.ob");
    for (size_t o = 0; o < outputs; o++) {
        pla_put(" ");
        pla_put(names[o]);
    }
    snprintf(text, sizeof text, "\n.p %zu\n", cubes);
    pla_put(text);
    for (size_t row = 0; row < rows; row++) {
        char cube[32], marks[8];
        for (size_t i = 0; i < inputs; i++)
            cube[i] = '0' + (row >> (inputs - 1 - i) & 1);
        cube[inputs] = 0;
        for (size_t o = 0; o < outputs; o++)
            marks[o] = (char)tables[o][row];
        marks[outputs] = 0;
        snprintf(text, sizeof text, "%s %s\n", cube, marks);
        if (strchr(marks, '1'))
            pla_put(text);
    }
    pla_put(".e\n");
    board_len = (size_t)(strchr(lines[3], '\n') + 1 - lines[2]);
    memcpy(board, lines[2], board_len);
    return 1;
}

static void load(const char *path)
{
    FILE *file = fopen(path, "rb");
    if (file == NULL)
        fail(path);
    sheet_len = fread(sheet, 1, CELLMAPPER_MAX_SHEET, file);
    fclose(file);
}

int main(int count, char **paths)
{
    int failed = 0;
    stack = mmap(NULL, ROOM, PROT_READ | PROT_WRITE, MAP_PRIVATE | MAP_ANONYMOUS | MAP_STACK, -1, 0);
    if (stack == MAP_FAILED)
        fail("no memory");
    nested();
    longest_plas();
    for (int i = 1; i < count; i++) {
        load(paths[i]);
        measure_all(paths[i]);
        if (pla_of_sheet())
            measure_pla(paths[i]);
    }
    for (size_t i = 0; i < OPERATIONS; i++) {
        printf("%s %zu bytes (%s)\n", operations[i].name, operations[i].most, operations[i].text);
        failed |= operations[i].most > LIMIT;
    }
    return failed;
}
