/* cellmapper: the Cell Mapper on the command line; `cellmapper --help` lists what it does.
 *
 * This program is thin and unproved. It reads files whole, lends them to the functions of include/cellmapper.h, which are proved,
 * and puts their answers into words. On the proofs rest the network, the digits, the text in BLIF, same or differs, the number and
 * the line of a refusal, the outputs of a cause, and where a line stands in its text. On the tests in tests/tool/ alone rests what
 * stands in this file: which file a refusal names, its words, the names of inputs and outputs, and `--abc`.
 */
#define _POSIX_C_SOURCE 200809L

#include "cellmapper.h"

#include <errno.h>
#include <pthread.h>
#include <stdio.h>
#include <stdlib.h>
#include <string.h>
#include <strings.h>
#include <time.h>
#include <unistd.h>

#define AS_WRITTEN(value) #value
#define DIGITS(value) AS_WRITTEN(value)

enum { DONE = 0, REFUSED = 1, FAILED = 2 }; /* the exit status; a network that differs counts as refused */
enum { MAX_OUTPUTS = 4 };
enum { MAX_SHOWN = 100 }; /* the most bytes of a line that are shown below a refusal */

/* A text that was read, with the name that messages give to it. */
struct text {
    const char *name;
    uint8_t *bytes;
    size_t length;
};

/* A line or a word of a text. */
struct part {
    const uint8_t *bytes;
    size_t length;
};

/* What the command line says, and the texts that it names. With --pla the sheet is the PLA text, and the board has the bound line
 * and the limit line. */
struct job {
    const struct command *command;
    const char *words[2];
    int word_count;
    const char *board_word;
    int abc;
    int help;
    struct text sheet;
    struct text board;
    struct text network;
};

/* What Map answers, and the outputs that are the cause where it refuses by 8. */
struct mapped {
    uint32_t number;
    size_t line;
    size_t cells;
    size_t length;
    size_t cause;
};

struct command {
    const char *name;
    int (*run)(const struct job *job);
    int least_words; /* how many words follow the command */
    int most_words;
    int takes_pla;
    int takes_abc;
};

static uint8_t network_buffer[CELLMAPPER_MAX_NETWORK];
static uint8_t table_buffer[CELLMAPPER_MAX_TABLE];
static uint8_t blif_buffer[CELLMAPPER_MAX_BLIF];

/* ---- files */

static void fail(const char *name)
{
    fprintf(stderr, "cellmapper: %s: %s\n", name, strerror(errno));
    exit(FAILED);
}

static void read_text(struct text *text, const char *name)
{
    int from_stdin = strcmp(name, "-") == 0;
    FILE *file = from_stdin ? stdin : fopen(name, "rb");
    size_t room = 0;

    text->name = from_stdin ? "<stdin>" : name;
    if (file == NULL)
        fail(text->name);
    while (!feof(file) && !ferror(file)) {
        if (text->length == room) {
            room = room == 0 ? 65536 : 2 * room;
            text->bytes = realloc(text->bytes, room);
            if (text->bytes == NULL)
                fail(text->name);
        }
        text->length += fread(text->bytes + text->length, 1, room - text->length, file);
    }
    if (ferror(file))
        fail(text->name);
    fclose(file);
}

/* What was printed may be on its way still, and a full disk shows only here. */
static int finish(int status)
{
    if (fflush(stdout) != 0 || ferror(stdout) || fclose(stdout) != 0)
        fail("<stdout>");
    return fflush(stderr) != 0 || ferror(stderr) ? FAILED : status;
}

/* ---- the library, on a sheet or on a panel that arrives as PLA */

static int is_pla(const struct job *job)
{
    return job->board_word != NULL;
}

static uint32_t map_panel(const struct job *job, size_t *line, size_t *cells, size_t *length)
{
    const struct text *sheet = &job->sheet, *board = &job->board;

    if (is_pla(job))
        return cellmapper_pla_map(sheet->bytes, sheet->length, board->bytes, board->length, network_buffer,
                                  sizeof network_buffer, line, cells, length);
    return cellmapper_map(sheet->bytes, sheet->length, network_buffer, sizeof network_buffer, line, cells, length);
}

static size_t cause_of_panel(const struct job *job)
{
    const struct text *sheet = &job->sheet, *board = &job->board;
    size_t outputs;

    if (is_pla(job))
        cellmapper_pla_cause(sheet->bytes, sheet->length, board->bytes, board->length, &outputs);
    else
        cellmapper_cause(sheet->bytes, sheet->length, &outputs);
    return outputs;
}

static uint32_t table_of_panel(const struct job *job, size_t output, size_t *line, size_t *written)
{
    const struct text *sheet = &job->sheet, *board = &job->board;

    if (is_pla(job))
        return cellmapper_pla_table(sheet->bytes, sheet->length, board->bytes, board->length, output, table_buffer,
                                    sizeof table_buffer, line, written);
    return cellmapper_table(sheet->bytes, sheet->length, output, table_buffer, sizeof table_buffer, line, written);
}

static uint32_t check_panel(const struct job *job, size_t *line, size_t *differs, size_t *output, size_t *row)
{
    const struct text *sheet = &job->sheet, *board = &job->board, *network = &job->network;

    if (is_pla(job))
        return cellmapper_pla_check(sheet->bytes, sheet->length, board->bytes, board->length, network->bytes, network->length,
                                    line, differs, output, row);
    return cellmapper_check(sheet->bytes, sheet->length, network->bytes, network->length, line, differs, output, row);
}

/* ---- a search that takes long shows that it is at work */

static pthread_mutex_t search_guard = PTHREAD_MUTEX_INITIALIZER;
static pthread_cond_t search_ended;
static int searching;

static void *show_seconds(void *unused)
{
    struct timespec next;
    unsigned long seconds = 0;
    int shown = 0;

    (void)unused;
    clock_gettime(CLOCK_MONOTONIC, &next);
    pthread_mutex_lock(&search_guard);
    while (searching) {
        next.tv_sec++;
        while (searching && pthread_cond_timedwait(&search_ended, &search_guard, &next) != ETIMEDOUT)
            continue;
        if (searching)
            shown = fprintf(stderr, "\rcellmapper: searching, %lu s", ++seconds);
        fflush(stderr);
    }
    pthread_mutex_unlock(&search_guard);
    if (shown > 0)
        fprintf(stderr, "\r%*s\r", shown, "");
    return NULL;
}

/* Whether the seconds are shown from now on: on a terminal alone. */
static int start_seconds(pthread_t *thread)
{
    pthread_condattr_t attributes;

    if (!isatty(STDERR_FILENO))
        return 0;
    pthread_condattr_init(&attributes);
    pthread_condattr_setclock(&attributes, CLOCK_MONOTONIC);
    pthread_cond_init(&search_ended, &attributes);
    pthread_condattr_destroy(&attributes);
    searching = 1;
    return pthread_create(thread, NULL, show_seconds, NULL) == 0;
}

static void stop_seconds(pthread_t thread)
{
    pthread_mutex_lock(&search_guard);
    searching = 0;
    pthread_cond_signal(&search_ended);
    pthread_mutex_unlock(&search_guard);
    pthread_join(thread, NULL);
    pthread_cond_destroy(&search_ended);
}

static struct mapped search(const struct job *job)
{
    struct mapped mapped;
    pthread_t thread;
    int shown = start_seconds(&thread);

    mapped.number = map_panel(job, &mapped.line, &mapped.cells, &mapped.length);
    mapped.cause = mapped.number == CELLMAPPER_NO_NETWORK ? cause_of_panel(job) : 0;
    if (shown)
        stop_seconds(thread);
    return mapped;
}

/* ---- lines, words and names */

/* A line of a text, counted from 1; empty where there is none. The library finds it as the line of a misspelled sheet. */
static struct part line_of(const struct text *text, size_t line)
{
    struct part part;
    size_t second, start;

    cellmapper_line(text->bytes, text->length, NULL, 0, CELLMAPPER_MISSPELLED, line, &second, &start, &part.length);
    part.bytes = text->bytes + start;
    return part;
}

/* A word of a line, counted from 0, where spaces and brackets part words; empty where there is none. */
static struct part word_of(const struct text *text, size_t line, size_t index)
{
    struct part left = line_of(text, line), word = {NULL, 0};
    size_t count;

    for (count = 0; count <= index; count++) {
        while (left.length > 0 && strchr(" ()", left.bytes[0]) != NULL) {
            left.bytes++;
            left.length--;
        }
        word = left;
        while (left.length > 0 && strchr(" ()", left.bytes[0]) == NULL) {
            left.bytes++;
            left.length--;
        }
        word.length -= left.length;
    }
    return word;
}

static int is_word(struct part part, const char *word)
{
    return part.length == strlen(word) && memcmp(part.bytes, word, part.length) == 0;
}

/* Names are the same in capitals and in small letters. */
static int is_name(struct part part, const char *word)
{
    return part.length == strlen(word) && strncasecmp((const char *)part.bytes, word, part.length) == 0;
}

static struct part input_name(const struct job *job, size_t input)
{
    return word_of(&job->sheet, is_pla(job) ? 3 : 2, input + 1);
}

static struct part output_name(const struct job *job, size_t output)
{
    return is_pla(job) ? word_of(&job->sheet, 4, output + 1) : word_of(&job->sheet, 5 + output, 1);
}

static struct part limit_of(const struct job *job)
{
    return is_pla(job) ? word_of(&job->board, 2, 1) : word_of(&job->sheet, 4, 1);
}

static void print_part(FILE *file, struct part part)
{
    fprintf(file, "%.*s", (int)part.length, (const char *)part.bytes);
}

/* The output that a word names or counts; where it does neither, a number that Table refuses. */
static size_t output_number(const struct job *job, const char *word)
{
    size_t output;

    if (word[0] != '\0' && word[strspn(word, "0123456789")] == '\0')
        return strtoul(word, NULL, 10); /* the greatest number where it is too large */
    for (output = 0; output < MAX_OUTPUTS; output++)
        if (is_name(output_name(job, output), word))
            return output;
    return SIZE_MAX;
}

/* ---- the words of a refusal */

/* Where a refusal stands: the text that it names, and its line there. */
struct place {
    const struct text *text;
    struct part part;
    int missing; /* the text ends before the line */
    int unended; /* the line is the text's last, and has no 0x0A */
};

/* What a line says, of a sheet or of the two texts of a panel that arrives as PLA, and the words for it by 2, 3 and 4. */
enum kind { EDITION, INPUTS, BOUND, LIMIT, OUTPUTS, AFTER_LIMIT };

static const struct {
    const char *misspelled;
    const char *out_of_range;
    const char *repeated;
} kinds[] = {
    [EDITION] = {"expected (design 1)", "", ""},
    [INPUTS] = {"expected (in NAME ..)", "a panel has 1 to 10 inputs", "an input is given twice"},
    [BOUND] = {"expected (bound NAME ..)", "a panel has 1 to 5 bound inputs", "a bound input is given twice"},
    [LIMIT] = {"expected (limit NUMBER)", "the limit is 0 to 6", ""},
    [OUTPUTS] = {"expected (out NAME FORMULA) or (end), and nothing after (end)", "brackets are at most 32 deep",
                 "an output has the name of an input or of an earlier output"},
    [AFTER_LIMIT] = {"expected nothing after the limit line", "", ""},
};

/* By 12, by line; the last is of every further line. */
static const char *const pla_spelling[] = {
    "a PLA text has 1 to " DIGITS(CELLMAPPER_MAX_PLA) " bytes",
    "expected .i NUMBER, 1 or more",
    "expected .o NUMBER, 1 or more",
    "expected .ilb and as many names as .i says",
    "expected .ob and as many names as .o says",
    "expected .p NUMBER",
    "expected a cube, or .e after as many cubes as .p says, and nothing after .e",
};

/* Of a panel that arrives as PLA, 1 to 3 and 5 are asked on the board, and 4 on its bound line and on lines 3 and 4 of the PLA
 * text; the lines of 12 to 14 are those of the PLA text, and are found as lines of a sheet are. */
static struct place place_of(const struct job *job, uint32_t number, size_t line)
{
    int on_board = is_pla(job) && number <= CELLMAPPER_NO_SUCH_INPUT && (number != CELLMAPPER_NAME_TWICE || line == 1);
    size_t as = number >= CELLMAPPER_PLA_MISSPELLED ? CELLMAPPER_MISSPELLED : number;
    const struct text *text = on_board ? &job->board : &job->sheet, *network = &job->network;
    size_t second, start;
    struct place place;

    cellmapper_line(text->bytes, text->length, network->bytes, network->length, as, line, &second, &start, &place.part.length);
    place.text = second ? network : text;
    place.part.bytes = place.text->bytes + start;
    place.missing = line > 0 && start == place.text->length;
    place.unended = line > 0 && !place.missing && start + place.part.length == place.text->length;
    return place;
}

/* Of a line that a refusal by 2 to 5 names. */
static enum kind kind_of(const struct job *job, const struct place *place, size_t line)
{
    if (place->text == &job->board)
        return line == 1 ? BOUND : line == 2 ? LIMIT : AFTER_LIMIT;
    if (is_pla(job))
        return line == 3 ? INPUTS : OUTPUTS;
    return line < 5 ? (enum kind)(line - 1) : OUTPUTS;
}

static const char *reason(const struct job *job, const struct place *place, uint32_t number, size_t line)
{
    if (place->unended)
        return "expected 0x0A at the end of the last line";
    switch (number) {
    case CELLMAPPER_BAD_BYTES:
        return "expected 1 to " DIGITS(CELLMAPPER_MAX_SHEET) " bytes, all printable or 0x0A, the last 0x0A";
    case CELLMAPPER_MISSPELLED:
        return kinds[kind_of(job, place, line)].misspelled;
    case CELLMAPPER_OUT_OF_RANGE:
        if (is_word(place->part, "(end)"))
            return "a panel has at least one output";
        return line == 5 + MAX_OUTPUTS ? "a panel has at most 4 outputs" : kinds[kind_of(job, place, line)].out_of_range;
    case CELLMAPPER_NAME_TWICE:
        return kinds[kind_of(job, place, line)].repeated;
    case CELLMAPPER_NO_SUCH_INPUT:
        return "a name on this line is not an input";
    case CELLMAPPER_TOO_MANY_CLASSES:
        return "a panel has at most 16 global classes";
    case CELLMAPPER_SHORT_BUFFER:
        return "the buffer is too short";
    case CELLMAPPER_NETWORK_MISSPELLED:
        return line == 0 ? "a network sheet has 1 to " DIGITS(CELLMAPPER_MAX_NETWORK) " bytes"
                         : "expected the lines of a network for this panel, and nothing after (end)";
    case CELLMAPPER_NETWORK_TOO_LARGE:
        return is_word(word_of(place->text, line, 0), "lut") ? "more lut lines than the limit"
                                                             : "the node reads more lut lines than its output's width";
    case CELLMAPPER_PLA_MISSPELLED:
        return pla_spelling[line < 6 ? line : 6];
    case CELLMAPPER_PLA_TOO_LARGE:
        return line == 1 ? "a panel has at most 10 inputs" : "a panel has at most 4 outputs";
    case CELLMAPPER_PLA_BAD_DIGIT:
        return "a cube has 0 or 1 for each output";
    default: /* of the other two refuse writes the words */
        return "README.md says what is asked";
    }
}

static void tell_cause(const struct job *job, size_t cause)
{
    struct part limit = limit_of(job);
    size_t output, count = 0, told = 0;

    for (output = 0; output < MAX_OUTPUTS; output++)
        count += cause >> output & 1;
    if (is_word(limit, "0"))
        fputs("no network without cells serves", stderr);
    else if (is_word(limit, "1"))
        fputs("no single cell serves", stderr);
    else
        fprintf(stderr, "no %.*s cells serve", (int)limit.length, (const char *)limit.bytes);
    fputs(count == 1 ? " the output " : " the outputs ", stderr);
    for (output = 0; output < MAX_OUTPUTS; output++)
        if (cause >> output & 1) {
            fputs(told == 0 ? "" : told + 1 < count ? ", " : " and ", stderr);
            print_part(stderr, output_name(job, output));
            told++;
        }
    fputs(count == 1 ? ", even on its own" : "; every smaller set of outputs fits", stderr);
}

static void show_line(struct part line)
{
    size_t at;

    fputs("    ", stderr);
    for (at = 0; at < line.length && at < MAX_SHOWN; at++) {
        int printable = line.bytes[at] >= 0x20 && line.bytes[at] <= 0x7E;

        fprintf(stderr, printable ? "%c" : "\\x%02X", line.bytes[at]);
    }
    fputs(at < line.length ? " ..\n" : "\n", stderr);
}

static int refuse(const struct job *job, uint32_t number, size_t line, size_t cause)
{
    struct place place = place_of(job, number, line);

    fputs(place.text->name, stderr);
    if (line > 0)
        fprintf(stderr, ":%zu", line);
    fprintf(stderr, ": refused by %u: ", (unsigned)number);
    if (place.missing)
        fputs("the line is missing; ", stderr);
    if (number == CELLMAPPER_NO_SUCH_OUTPUT)
        fprintf(stderr, "there is no output %s", job->words[1]);
    else if (number == CELLMAPPER_NO_NETWORK)
        tell_cause(job, cause);
    else
        fputs(reason(job, &place, number, line), stderr);
    fputc('\n', stderr);
    if (line > 0 && !place.missing)
        show_line(place.part);
    return REFUSED;
}

/* ---- the commands */

static int run_map(const struct job *job)
{
    struct mapped mapped = search(job);

    if (mapped.number != CELLMAPPER_OK)
        return refuse(job, mapped.number, mapped.line, mapped.cause);
    fwrite(network_buffer, 1, mapped.length, stdout);
    return DONE;
}

/* The values of the inputs on a row, the first of which is its highest bit. */
static void print_row(const struct job *job, size_t row)
{
    size_t count = 0, input;

    while (input_name(job, count).length > 0)
        count++;
    for (input = 0; input < count; input++) {
        putchar(input == 0 ? '(' : ' ');
        print_part(stdout, input_name(job, input));
        printf("=%zu", row >> (count - 1 - input) & 1);
    }
    putchar(')');
}

static int run_check(const struct job *job)
{
    size_t line, differs, output, row, written;
    uint32_t number = check_panel(job, &line, &differs, &output, &row);
    int wanted;

    if (number != CELLMAPPER_OK)
        return refuse(job, number, line, 0);
    if (!differs) {
        puts("same");
        return DONE;
    }
    table_of_panel(job, output, &line, &written);
    wanted = table_buffer[row];
    fputs("differs: output ", stdout);
    print_part(stdout, output_name(job, output));
    printf(" is %c and must be %c on row %zu ", wanted == '0' ? '1' : '0', wanted, row);
    print_row(job, row);
    putchar('\n');
    return REFUSED;
}

static int run_table(const struct job *job)
{
    size_t line, written;
    uint32_t number = table_of_panel(job, output_number(job, job->words[1]), &line, &written);

    if (number != CELLMAPPER_OK)
        return refuse(job, number, line, 0);
    fwrite(table_buffer, 1, written, stdout);
    putchar('\n');
    return DONE;
}

/* ABC does not read a block that has inputs and no rows, so the output alone is left of its first line. */
static void print_for_abc(size_t length)
{
    size_t start, end, output;

    for (start = 0; start < length; start = end) {
        end = start;
        while (end < length && blif_buffer[end] != '\n')
            end++;
        output = end;
        end += end < length;
        if (end < length && blif_buffer[end] == '.' && length - start >= 7 && memcmp(blif_buffer + start, ".names ", 7) == 0) {
            while (blif_buffer[output - 1] != ' ')
                output--;
            fputs(".names ", stdout);
            fwrite(blif_buffer + output, 1, end - output, stdout);
        } else {
            fwrite(blif_buffer + start, 1, end - start, stdout);
        }
    }
}

static int run_export(const struct job *job)
{
    const struct text *sheet = &job->sheet, *network = &job->network;
    size_t line, length;
    uint32_t number = cellmapper_export(sheet->bytes, sheet->length, network->bytes, network->length, blif_buffer,
                                        sizeof blif_buffer, &line, &length);

    if (number != CELLMAPPER_OK)
        return refuse(job, number, line, 0);
    if (job->abc)
        print_for_abc(length);
    else
        fwrite(blif_buffer, 1, length, stdout);
    return DONE;
}

static int run_why(const struct job *job)
{
    struct mapped mapped;

    if (job->network.name != NULL)
        return run_check(job);
    mapped = search(job);
    if (mapped.number != CELLMAPPER_OK)
        return refuse(job, mapped.number, mapped.line, mapped.cause);
    printf("%s: maps with %zu cell%s; the limit is ", job->sheet.name, mapped.cells, mapped.cells == 1 ? "" : "s");
    print_part(stdout, limit_of(job));
    putchar('\n');
    return DONE;
}

/* ---- the command line */

static const struct command commands[] = {
    {"map", run_map, 1, 1, 1, 0},
    {"check", run_check, 2, 2, 1, 0},
    {"table", run_table, 2, 2, 1, 0},
    {"export", run_export, 2, 2, 0, 1},
    {"why", run_why, 1, 2, 0, 0},
};

static const char help[] =
    "cellmapper map SHEET             prints the first network of the fewest cells for a design sheet\n"
    "cellmapper check SHEET NETWORK   says whether a network computes a design: same, or differs with an output and a row\n"
    "cellmapper table SHEET OUTPUT    prints the digits of an output, which has a name, in either case, or a number from 0\n"
    "cellmapper export SHEET NETWORK  prints a network in BLIF, whatever it computes\n"
    "cellmapper why SHEET [NETWORK]   says why a sheet or a network is refused, or with how many cells a sheet maps\n"
    "\n"
    "--pla BOARD  beside map, check and table: SHEET is a PLA text, and BOARD has the bound line and the limit line\n"
    "--abc        beside export: a block without rows has no inputs, as ABC wants it\n"
    "--help       prints this\n"
    "\n"
    "A file is a name, or - for standard input. A refusal is told on standard error.\n"
    "Exit status: 0 done, 1 refused or differs, 2 wrong use, or a file that cannot be read or written.\n";

/* Tells what is wrong with the command line; the answer is "no". */
static int misuse(const char *what, const char *word)
{
    fprintf(stderr, "cellmapper: %s%s (see cellmapper --help)\n", what, word);
    return 0;
}

static int take_command(struct job *job, const char *word)
{
    size_t index;

    for (index = 0; index < sizeof commands / sizeof commands[0]; index++)
        if (strcmp(word, commands[index].name) == 0)
            job->command = &commands[index];
    return job->command != NULL || misuse("there is no command ", word);
}

static int take_words(struct job *job, char **words)
{
    for (; *words != NULL; words++) {
        if (strcmp(*words, "--help") == 0) {
            job->help = 1;
        } else if (strcmp(*words, "--abc") == 0) {
            job->abc = 1;
        } else if (strcmp(*words, "--pla") == 0) {
            job->board_word = *++words;
            if (job->board_word == NULL)
                return misuse("a file is missing after --pla", "");
        } else if (words[0][0] == '-' && words[0][1] != '\0') {
            return misuse("there is no option ", *words);
        } else if (job->command == NULL) {
            if (!take_command(job, *words))
                return 0;
        } else if (job->word_count == job->command->most_words) {
            return misuse("a word too many: ", *words);
        } else {
            job->words[job->word_count++] = *words;
        }
    }
    return 1;
}

/* The file of the network sheet, or nothing; what follows the sheet of table is an output. */
static const char *network_word(const struct job *job)
{
    return job->command->run == run_table ? NULL : job->words[1];
}

static int is_stdin(const char *word)
{
    return word != NULL && strcmp(word, "-") == 0;
}

static int is_complete(const struct job *job)
{
    const struct command *command = job->command;

    if (command == NULL)
        return misuse("a command is missing", "");
    if (job->word_count < command->least_words)
        return misuse("a word is missing after ", command->name);
    if (is_pla(job) && !command->takes_pla)
        return misuse("--pla does not go with ", command->name);
    if (job->abc && !command->takes_abc)
        return misuse("--abc does not go with ", command->name);
    if (is_stdin(job->words[0]) + is_stdin(job->board_word) + is_stdin(network_word(job)) > 1)
        return misuse("standard input can be one file only", "");
    return 1;
}

static int run(struct job *job)
{
    read_text(&job->sheet, job->words[0]);
    if (is_pla(job))
        read_text(&job->board, job->board_word);
    if (network_word(job) != NULL)
        read_text(&job->network, network_word(job));
    return job->command->run(job);
}

int main(int argc, char **argv)
{
    static struct job job;

    setvbuf(stderr, NULL, _IOLBF, BUFSIZ); /* a message comes in one piece beside those of other programs */
    if (!take_words(&job, argv + (argc > 0)))
        return FAILED;
    if (job.help) {
        fputs(help, stdout);
        return finish(DONE);
    }
    if (!is_complete(&job))
        return FAILED;
    return finish(run(&job));
}
