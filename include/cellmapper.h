/* The Cell Mapper for a program in C: Table, Map, Check and Export on design sheets and network sheets, the line that a refusal of
 * theirs names, the outputs that cause a refusal by 8, and Table, Map, Check and such a cause on panels that arrive as PLA.
 * docs/SPECIFICATION.md says what the texts are and what is answered: section 11 has the operations, section 9 the questions.
 *
 * Link target/staticlib/libcellmapper.a, which `tests/archive` proves and builds for x86-64 Linux. The archive
 * needs nothing but memcpy and memset, keeps no state, allocates nothing, and may be called from several threads at once.
 *
 * What holds of every function, proved for all bytes, lengths and numbers handed in (crates/cellmapper_c/src/lib.rt):
 * - They end, and read and write nothing outside of what they are lent.
 * - The result is 0, or the number of the question that was answered "no", 1 to 14 (enum cellmapper_refusal below). On a refusal
 *   *line is the line at fault, counted from 1, or 0 where the question concerns no line, and the buffer is untouched.
 * - Every out-parameter is set on every call; one that does not apply is set to 0.
 * - Bytes of a buffer past what was written are unchanged.
 *
 * What the caller owes, as to any C function:
 * - A pointer and a length name that many bytes. A length may be 0; its pointer is then not read and may be null.
 * - Out-parameters are not null, are aligned, and are objects of their own: none overlaps another, a text or a buffer. The
 *   buffer overlaps no text.
 *
 * A call needs stack, which the proof takes for granted: at most 101,000 bytes, measured on the most deeply nested texts and
 * on valid sheets (tests/stack/run, which fails above 256 KiB).
 */
#ifndef CELLMAPPER_H
#define CELLMAPPER_H

#include <stddef.h>
#include <stdint.h>

#ifdef __cplusplus
extern "C" {
#endif

/* The version of this header and of the archive: a request that adds to what is here raises the second number. */
#define CELLMAPPER_VERSION "1.6"
#define CELLMAPPER_VERSION_MAJOR 1
#define CELLMAPPER_VERSION_MINOR 6

/* The most bytes of a design sheet, of a network sheet and of a PLA text, the most digits of a table, and a number of bytes that
 * no text of Export exceeds: buffers of these lengths are long enough for every sheet, every panel and every network. */
#define CELLMAPPER_MAX_SHEET 4096
#define CELLMAPPER_MAX_NETWORK 8192
#define CELLMAPPER_MAX_PLA 32768
#define CELLMAPPER_MAX_TABLE 1024
#define CELLMAPPER_MAX_BLIF 55735

/* What the functions answer: nothing was refused, or the question that was answered "no", and which line *line is then. Which
 * functions refuse by a number, and of which text its line is, stands at each function; of a panel that arrives as PLA, where 1 to 5
 * are asked of two texts, above the functions for it. */
enum cellmapper_refusal {
    CELLMAPPER_OK = 0,                  /* every question was answered "yes" */
    CELLMAPPER_BAD_BYTES = 1,           /* has the text 1 to CELLMAPPER_MAX_SHEET bytes, printable or 0x0A, the last 0x0A? line 0 */
    CELLMAPPER_MISSPELLED = 2,          /* is each line spelled as its place demands? that line, one past the last if one is missing */
    CELLMAPPER_OUT_OF_RANGE = 3,        /* are the numbers of names and outputs, the limit and the depth in range? the line */
    CELLMAPPER_NAME_TWICE = 4,          /* is each newly given name new, case ignored? the line that gives it again */
    CELLMAPPER_NO_SUCH_INPUT = 5,       /* is each name in `bound` or a formula an input, case ignored? the line */
    CELLMAPPER_NO_SUCH_OUTPUT = 6,      /* is there an output of this number? line 0 */
    CELLMAPPER_TOO_MANY_CLASSES = 7,    /* are there at most 16 global classes? line 0 */
    CELLMAPPER_NO_NETWORK = 8,          /* does some network within limit and widths compute every output? line 0 */
    CELLMAPPER_SHORT_BUFFER = 9,        /* is the buffer long enough? line 0 */
    CELLMAPPER_NETWORK_MISSPELLED = 10, /* is the network sheet spelled for this design? its first bad line, 0 for its size */
    CELLMAPPER_NETWORK_TOO_LARGE = 11,  /* are its lut lines within the limit and its nodes within their widths? the first line */
    CELLMAPPER_PLA_MISSPELLED = 12,     /* is the PLA text spelled, with as many cubes as it says? its first bad line, 0 for its size */
    CELLMAPPER_PLA_TOO_LARGE = 13,      /* has it at most 10 inputs and 4 outputs? line 1 for the inputs, 2 for the outputs */
    CELLMAPPER_PLA_BAD_DIGIT = 14       /* is each character of an output part 0 or 1? the line of the first such cube */
};

/* Table: the truth table of one output of a design sheet, outputs counted from 0.
 *
 * Result 0: the buffer's first *written bytes, 2 to the number of inputs, are the output's digits '0' and '1' in row order.
 * Refusals: 1 to 5 for the sheet, 6 where there is no such output, 9 where buffer_len is less than the digits. */
uint32_t cellmapper_table(const uint8_t *sheet, size_t sheet_len, size_t output, uint8_t *buffer, size_t buffer_len,
                          size_t *line, size_t *written);

/* Map: the first network sheet in byte order of those with the fewest shared tables for a design sheet, names spelled as the
 * design sheet first gives them: inputs, bound ones too, as in the `in` line, outputs as in their `out` lines.
 *
 * Result 0: the buffer's first *length bytes are a network sheet with *cells lut lines, which is within the limit and the
 * widths and computes every output on every row; no network that does so has fewer lut lines. Each of its shared tables is
 * 0 at vertex 0, and so is each entry of a node for a code that no vertex has. Of all network sheets in this spelling of
 * which this is true it is the first in byte order, so that a design sheet has one network.
 * Refusals: 1 to 5 for the sheet, 7 for more than 16 global classes, 8 where no network within limit and widths computes
 * every output, 9 where buffer_len is less than the network's length. */
uint32_t cellmapper_map(const uint8_t *sheet, size_t sheet_len, uint8_t *buffer, size_t buffer_len, size_t *line,
                        size_t *cells, size_t *length);

/* The cause of a refusal by 8: which outputs of a design sheet are too many for its limit.
 *
 * Where cellmapper_map refuses the sheet by 8, bit o of *outputs is 1 for each output o of a set: the sheet with only the `out`
 * lines of the set is refused by 8, the sheet of every smaller set but the empty one is not, and neither is that of an earlier set
 * of as many outputs. Of two such sets that one is earlier which has the lowest output that is in one of them alone. Where 8 does
 * not refuse the sheet, whether another number does or it maps, *outputs is 0. The result is always 0. */
uint32_t cellmapper_cause(const uint8_t *sheet, size_t sheet_len, size_t *outputs);

/* Check: a network sheet against a design sheet. The network sheet may have each name in either case, place by place.
 *
 * Result 0 and *differs 0: the network has the design's value in every output on every row. Result 0 and *differs 1: *output
 * is the lowest output that differs, and *row the lowest row on which it does.
 * Refusals: 1 to 5 for the design sheet; 10 where the network sheet is misspelled for this design, 11 where it exceeds the
 * limit or a width, *line being then a line of the network sheet. */
uint32_t cellmapper_check(const uint8_t *sheet, size_t sheet_len, const uint8_t *network, size_t network_len, size_t *line,
                          size_t *differs, size_t *output, size_t *row);

/* Export: a network sheet as a text in BLIF, for tools that simulate. It is examined as Check examines it; whether it has the
 * design's values is not asked.
 *
 * Result 0: the buffer's first *length bytes are the model `panel` with the sheet's inputs and outputs in its order and a
 * `.names` block for each lut line and each node, with names as Map spells them; the lut line of _0 is the block of CC_0, and so
 * on. Read by BLIF's rules it has the network's value in every output on every row; where Check says "same" this is the
 * design's. A table of zeros is a block without rows.
 * Refusals: those of Check, 1 to 5, 10 and 11, with the same lines; then 9 where buffer_len is less than the text's length. */
uint32_t cellmapper_export(const uint8_t *sheet, size_t sheet_len, const uint8_t *network, size_t network_len, uint8_t *buffer,
                           size_t buffer_len, size_t *line, size_t *length);

/* Line: the line that a refusal of Table, Map, Check or Export names, as a part of the sheet that it stands in. The result is 0.
 *
 * `number` and `line` are the refusal's, as the result and *line were; `network` is of length 0 where there is no network sheet.
 * Any numbers and any bytes may be handed in:
 * - 2 to 5: line `line` of the design sheet, with *second 0;
 * - 10 and 11: line `line` of the network sheet, with *second 1;
 * - line 0, and a line past the end: the empty part at the end of that same sheet;
 * - any other number: the empty part at the end of the design sheet, with *second 0.
 * The part is the *length bytes of that sheet from *start on, counted from 0; *start + *length is at most the sheet's length. The
 * line's 0x0A is left off, and a last line without 0x0A is handed back whole. For a refusal's own number and line, where the sheet
 * has this line, it is the one for which the examination asked the question that was answered "no". */
uint32_t cellmapper_line(const uint8_t *sheet, size_t sheet_len, const uint8_t *network, size_t network_len, size_t number,
                         size_t line, size_t *second, size_t *start, size_t *length);

/* A panel that arrives as PLA is two texts. `pla` has the lines `.i N`, `.o N`, `.ilb names`, `.ob names`, `.p N`, then N cubes,
 * then `.e`; `board` has the lines `(bound ..)` and `(limit N)` as a design sheet spells them. Both may hold any bytes. An
 * output is 1 on each row that a cube with a 1 for it covers, and 0 on all others. The functions below answer as those above
 * do on a design sheet with the same names, tables, bound inputs and limit. Where the texts are at fault they refuse by these
 * numbers, asked in this order, with a line of the text at fault:
 * - 12: `pla` has no bytes or more than CELLMAPPER_MAX_PLA (line 0), or else a line is bad, and the first one is named: one that is
 *   misspelled, whatever bytes the output parts of cubes are made of; a missing one, one past the last; `.e` where the cubes are
 *   not as many as `.p` says; any after `.e`; and a last one without 0x0A;
 * - 13: more inputs (line 1) or more outputs (line 2) than a design sheet may have;
 * - 14: an output part with another character than 0 and 1 (the line of the first such cube);
 * - 1 and 2: `board` as a text, and its first misspelled line;
 * - 4: a repeated input (line 3 of `pla`), an output that equals an input or an earlier output (line 4 of `pla`);
 * - 3, 4, 5: the bound inputs (line 1 of `board`);
 * - 3: the limit (line 2 of `board`). */

/* Table of a panel that arrives as PLA. Refusals: those of the two texts, then 6 and 9 as cellmapper_table has them. */
uint32_t cellmapper_pla_table(const uint8_t *pla, size_t pla_len, const uint8_t *board, size_t board_len, size_t output,
                              uint8_t *buffer, size_t buffer_len, size_t *line, size_t *written);

/* Map of a panel that arrives as PLA. Refusals: those of the two texts, then 7, 8 and 9 as cellmapper_map has them. */
uint32_t cellmapper_pla_map(const uint8_t *pla, size_t pla_len, const uint8_t *board, size_t board_len, uint8_t *buffer,
                            size_t buffer_len, size_t *line, size_t *cells, size_t *length);

/* The cause of a refusal by 8 of cellmapper_pla_map, as cellmapper_cause has it. The result is always 0. */
uint32_t cellmapper_pla_cause(const uint8_t *pla, size_t pla_len, const uint8_t *board, size_t board_len, size_t *outputs);

/* Check of a network sheet against a panel that arrives as PLA. Refusals: those of the two texts, then 10 and 11 as
 * cellmapper_check has them. */
uint32_t cellmapper_pla_check(const uint8_t *pla, size_t pla_len, const uint8_t *board, size_t board_len, const uint8_t *network,
                              size_t network_len, size_t *line, size_t *differs, size_t *output, size_t *row);

#ifdef __cplusplus
}
#endif

#endif
