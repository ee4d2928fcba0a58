// The sheets to try A to K (docs/SPECIFICATION.md, section 16), names in either case, texts in BLIF, PLA texts, every refusal, the
// lines that refusals name and the causes of refusal 8, by hand: what each call must answer stands beside it.
// Buffers are exactly long enough and one byte short; slices of length 0 have null pointers too (calls.cpp). Then the stack
// that the header promises to be enough.
#include "worked.h"

#include "calls.h"
#include "cellmapper.h"
#include "files.h"

#include <algorithm>
#include <cstdint>
#include <pthread.h>
#include <sstream>
#include <vector>

namespace {

typedef std::vector<std::string> Lines;

const size_t AMPLE = 8192;

std::string text(const Lines &lines)
{
    std::string all;
    for (const std::string &l : lines)
        all += l + "\n";
    return all;
}

std::string sheet(const std::string &inputs, const std::string &bound, const std::string &limit, const Lines &formulas)
{
    Lines lines = {"(design 1)", "(in " + inputs + ")", "(bound " + bound + ")", "(limit " + limit + ")"};
    for (size_t i = 0; i < formulas.size(); i++)
        lines.push_back(std::string("(out ") + "fghijk"[i] + " " + formulas[i] + ")");
    lines.push_back("(end)");
    return text(lines);
}

std::string file(const std::string &name)
{
    return contents("tests/sheets/" + name);
}

Lines lines_of(const std::string &all)
{
    std::istringstream stream(all);
    Lines lines;
    for (std::string line; std::getline(stream, line);)
        lines.push_back(line);
    return lines;
}

const std::string A = file("a.sheet"), NETWORK = file("a.network");
const Lines NETWORK_LINES = lines_of(NETWORK);

// A's network with one line for another; an empty line takes it out.
std::string with(size_t line, const std::string &other)
{
    Lines lines = NETWORK_LINES;
    if (other.empty())
        lines.erase(lines.begin() + long(line) - 1);
    else
        lines[line - 1] = other;
    return text(lines);
}

// ---- Table

void tables_to(const std::string &s, size_t output, const std::string &digits)
{
    Tabled t = call_table(s, output, digits.size());
    expect(t.number == 0 && t.digits == digits, "Table's digits", s);
    expect(call_table(s, output, AMPLE).digits == digits, "Table's digits in a longer buffer", s);
    expect(call_table(s, output, digits.size() - 1).number == 9, "Table in a buffer one byte short", s);
    expect(call_table(s, output, 0).number == 9, "Table in an empty buffer", s);
}

void table_refuses(const std::string &s, size_t output, unsigned number, size_t line)
{
    for (size_t room : {size_t(0), AMPLE}) {
        Tabled t = call_table(s, output, room);
        expect(t.number == number && t.line == line, "Table must refuse by " + std::to_string(number) + " line " + std::to_string(line), s);
    }
}

// ---- Map

void maps_to(const std::string &s, size_t cells, const std::string &wanted)
{
    Mapped m = call_map(s, AMPLE);
    expect(m.number == 0 && m.cells == cells, "Map with " + std::to_string(cells) + " cells", s, m.network);
    expect(m.network == wanted, "Map's network is\n" + wanted, s, m.network);
    Checked c = call_check(s, m.network);
    expect(c.number == 0 && c.differs == 0, "Check on Map's network", s, m.network);
    Mapped exact = call_map(s, m.length), shorter = call_map(s, m.length - 1), none = call_map(s, 0);
    expect(exact.number == 0 && exact.network == m.network, "Map in a buffer just long enough", s);
    expect(shorter.number == 9 && shorter.line == 0, "Map in a buffer one byte short", s);
    expect(none.number == 9 && none.line == 0, "Map in an empty buffer", s);
    expect(call_cause(s) == 0, "a sheet that maps has no cause", s);
}

void map_refuses(const std::string &s, unsigned number, size_t line)
{
    for (size_t room : {size_t(0), AMPLE}) {
        Mapped m = call_map(s, room);
        expect(m.number == number && m.line == line, "Map must refuse by " + std::to_string(number) + " line " + std::to_string(line), s);
    }
}

// Refusal 8, and the outputs that are its cause.
void lacks_cells(const std::string &s, size_t cause)
{
    map_refuses(s, 8, 0);
    expect(call_cause(s) == cause, "the cause is the set " + std::to_string(cause), s);
}

// ---- Check and Export, which examine alike

void same(const std::string &s, const std::string &n)
{
    Checked c = call_check(s, n);
    expect(c.number == 0 && c.differs == 0, "Check must say that it is the same", s, n);
    expect(call_export(s, n, CELLMAPPER_MAX_BLIF).number == 0, "Export of what is the same", s, n);
}

void both_refuse(const std::string &s, const std::string &n, unsigned number, size_t line)
{
    const std::string answer = std::to_string(number) + " line " + std::to_string(line);
    Checked c = call_check(s, n);
    expect(c.number == number && c.line == line, "Check must refuse by " + answer, s, n);
    for (size_t room : {size_t(0), size_t(CELLMAPPER_MAX_BLIF)}) {
        Exported e = call_export(s, n, room);
        expect(e.number == number && e.line == line, "Export must refuse by " + answer, s, n);
    }
}

void differs_at(const std::string &s, const std::string &n, size_t output, size_t row)
{
    Checked c = call_check(s, n);
    expect(c.number == 0 && c.differs == 1 && c.output == output && c.row == row, "Check must say where it differs", s, n);
    expect(call_export(s, n, CELLMAPPER_MAX_BLIF).number == 0, "Export of what differs", s, n);
}

void exports_to(const std::string &s, const std::string &n, const std::vector<Lines> &parts)
{
    std::string wanted;
    for (const Lines &part : parts)
        wanted += text(part);
    Exported e = call_export(s, n, CELLMAPPER_MAX_BLIF), exact = call_export(s, n, wanted.size());
    expect(e.number == 0 && e.length == wanted.size() && e.text == wanted, "Export's text\n" + e.text, s, n);
    expect(exact.number == 0 && exact.text == wanted, "Export in a buffer just long enough", s, n);
    for (size_t room : {wanted.size() - 1, size_t(1), size_t(0)}) {
        Exported shorter = call_export(s, n, room);
        expect(shorter.number == 9 && shorter.line == 0, "Export in a buffer too short", s, n);
    }
}

// A refusal of the design sheet itself, by all four.
void all_refuse(const std::string &s, unsigned number, size_t line)
{
    table_refuses(s, 0, number, line);
    table_refuses(s, SIZE_MAX, number, line);
    map_refuses(s, number, line);
    both_refuse(s, NETWORK, number, line);
    both_refuse(s, "", number, line);
    expect(call_cause(s) == 0, "a sheet that is refused by another number than 8 has no cause", s);
}

Lines words_of(std::istream &stream)
{
    Lines words;
    for (std::string word; stream >> word;)
        words.push_back(word);
    return words;
}

size_t number_at(const Lines &words, size_t place)
{
    return std::stoull(words.at(place));
}

// A line of tests/sheets/ANSWERS: a number of cells; inf and the outputs that are the cause; or refused N line L.
void map_answers(const std::string &name, const Lines &wanted)
{
    const std::string s = file(name + ".sheet");
    size_t cause = 0;
    if (wanted.at(0) == "inf") {
        for (size_t i = 1; i < wanted.size(); i++)
            cause |= size_t(1) << number_at(wanted, i);
        lacks_cells(s, cause);
    } else if (wanted[0] != "refused") {
        maps_to(s, number_at(wanted, 0), file(name + ".network"));
    } else if (number_at(wanted, 1) <= 5) {
        all_refuse(s, unsigned(number_at(wanted, 1)), number_at(wanted, 3));
    } else {
        map_refuses(s, unsigned(number_at(wanted, 1)), number_at(wanted, 3));
        expect(call_cause(s) == 0, "another refusal than 8 has no cause", s);
    }
}

// Check's answer: same; differs output O row R; or refused N line L.
void check_answers(const std::string &s, const std::string &n, const Lines &wanted)
{
    if (wanted.at(0) == "same")
        same(s, n);
    else if (wanted[0] == "differs")
        differs_at(s, n, number_at(wanted, 2), number_at(wanted, 4));
    else
        both_refuse(s, n, unsigned(number_at(wanted, 1)), number_at(wanted, 3));
}

void sheets_to_try()
{
    size_t answers = 0;
    for (const std::string &line : lines_of(file("ANSWERS"))) {
        std::istringstream stream(line);
        std::string name;
        stream >> name;
        map_answers(name, words_of(stream));
        answers++;
    }
    for (const std::string &line : lines_of(file("CHECKS"))) {
        std::istringstream stream(line);
        std::string name, network;
        stream >> name >> network;
        check_answers(file(name + ".sheet"), file(network + ".network"), words_of(stream));
        answers++;
    }
    expect(answers >= 34, "there are 34 answers in tests/sheets", "");
    expect(call_map(A, 96).number == 0 && call_map(A, 95).number == 9, "sheet B", A);
    tables_to(A, 0, "0110100110010110");
    tables_to(A, 1, "0001010001000001");
}

// Of as many outputs the earlier set (clause 11.7).
void causes_to_try()
{
    const std::string a = "(xor a c)", b = "(xor b c)", both = "(xor a b c)";
    lacks_cells(sheet("a b c", "a b", "0", {"c", "(not c)", a, b}), 0b100);
    lacks_cells(sheet("a b c", "a b", "1", {a, b, both}), 0b11);
    lacks_cells(sheet("a b c", "a b", "1", {a, a, b, b}), 0b101);
    lacks_cells(sheet("a b c", "a b", "1", {a, "1", a, both}), 0b1001);
    lacks_cells(sheet("a b c", "a b", "1", {"c", a, a, b}), 0b1010);
    lacks_cells(sheet("a b c", "a b", "1", {"c", "0", a, b}), 0b1100);
    lacks_cells(sheet("a b c", "a b", "2", {a, a, b, both}), 0b1101);
    lacks_cells(sheet("a b c", "a b", "2", {"c", a, b, both}), 0b1110);
    lacks_cells(sheet("a b c d x", "a b c d", "3", {"(xor a x)", "(xor b x)", "(xor c x)", "(xor d x)"}), 0b1111);
    // One output that needs more cells than the limit is the cause, though two before it need too many together.
    lacks_cells(sheet("a b c d", "a b", "1", {"(xor a c)", "(xor b c)", "(or (and a c) (and b d))"}), 0b100);
}

// ---- the lines that refusals name

void part_is(const std::string &s, const std::string &n, Named named, size_t second, size_t start, const std::string &line)
{
    Part p = call_lines(s, n, {named})[0];
    bool good = p.second == second && p.start == start && p.length == line.size() && (second ? n : s).substr(p.start, p.length) == line;
    expect(good, "the line of refusal " + std::to_string(named.number) + " line " + std::to_string(named.line) + " is '" + line + "'", s, n);
}

void lines_to_try()
{
    const Lines of_a = lines_of(A);
    const size_t starts[] = {0, 11, 24, 38, 48, 70, 98}, network_starts[] = {0, 12, 38, 59, 80, 90};
    for (size_t number : {2, 3, 4, 5}) {
        for (size_t line = 1; line <= 7; line++)
            part_is(A, NETWORK, {number, line}, 0, starts[line - 1], of_a[line - 1]);
        for (size_t line : {size_t(0), size_t(8), size_t(9), SIZE_MAX - 1, SIZE_MAX})
            part_is(A, NETWORK, {number, line}, 0, 104, "");
    }
    for (size_t number : {10, 11}) {
        for (size_t line = 1; line <= 6; line++)
            part_is(A, NETWORK, {number, line}, 1, network_starts[line - 1], NETWORK_LINES[line - 1]);
        for (size_t line : {size_t(0), size_t(7), size_t(8), SIZE_MAX})
            part_is(A, NETWORK, {number, line}, 1, 96, "");
    }
    const size_t others[] = {0, 1, 6, 7, 8, 9, 12, 13, 14, 15, 16, 17, 18, 19, 20, 255, 258, 266, SIZE_MAX};
    for (size_t number : others)
        for (size_t line = 0; line < 9; line++)
            part_is(A, NETWORK, {number, line}, 0, 104, "");
    for (size_t line : {0, 1, 2}) {
        part_is("", NETWORK, {2, line}, 0, 0, "");
        part_is(A, "", {10, line}, 1, 0, "");
        part_is("", "", {8, line}, 0, 0, "");
    }
    part_is("ab\ncd", "", {3, 1}, 0, 0, "ab");
    part_is("ab\ncd", "", {3, 2}, 0, 3, "cd");
    part_is("ab\ncd", "", {3, 3}, 0, 5, "");
    part_is("", "\n\nx", {11, 1}, 1, 0, "");
    part_is("", "\n\nx", {11, 2}, 1, 1, "");
    part_is("", "\n\nx", {11, 3}, 1, 2, "x");
    part_is("", "\n\nx", {11, 4}, 1, 3, "");
    part_is(std::string("\0\r\n\xFF", 4), "", {2, 1}, 0, 0, std::string("\0\r", 2));
    part_is(std::string("\0\r\n\xFF", 4), "", {2, 2}, 0, 3, "\xFF");
    part_is(std::string(4096, '\n'), "", {2, 4096}, 0, 4095, "");
    part_is(std::string(4096, '\n') + "z", "", {2, 4097}, 0, 4096, "z");
}

// ---- the cases of tests/reference/

// The texts of a case, and the words of the answer.
struct Case {
    Lines texts;
    Lines answer;
};

// A case is a line with the lengths of its texts and the answer, the texts one after another, and 0x0A.
std::vector<Case> cases(const std::string &kind, size_t texts)
{
    const std::string all = contents("target/tests/library/cases/" + kind);
    std::vector<Case> found;
    for (size_t at = 0; at < all.size(); at++) {
        const size_t end = all.find('\n', at);
        std::istringstream head(all.substr(at, end - at));
        Case one;
        at = end + 1;
        for (size_t count = 0; count < texts; count++) {
            size_t length;
            head >> length;
            one.texts.push_back(all.substr(at, length));
            at += length;
        }
        one.answer = words_of(head);
        found.push_back(one);
    }
    return found;
}

// Table's cases: the output, the room, and refused N line L or written K DIGITS.
void cases_of_sheets()
{
    for (const Case &one : cases("sheets", 1)) {
        const std::string &s = one.texts[0];
        const size_t output = number_at(one.answer, 0);
        Tabled t = call_table(s, output, number_at(one.answer, 1));
        if (one.answer.at(2) == "written") {
            expect(t.number == 0 && t.digits == one.answer.at(4), "Table's digits of a case", s);
            tables_to(s, output, t.digits);
        } else {
            expect(t.number == number_at(one.answer, 3) && t.line == number_at(one.answer, 5), "Table refuses a case by another number or line", s);
            if (t.number <= 5)
                all_refuse(s, t.number, t.line);
        }
    }
}

void cases_of_networks()
{
    for (const Case &one : cases("networks", 2))
        check_answers(one.texts[0], one.texts[1], one.answer);
}

void texts_in_blif()
{
    Lines head = {".model panel", ".inputs a b c d", ".outputs f g"};
    const Lines c0 = {".names a b c CC_0", "001 1", "010 1", "100 1", "111 1"}, f = {".names CC_0 d f", "01 1", "10 1"};
    exports_to(A, NETWORK, {head, c0, f, {".names CC_0 d g", "11 1", ".end"}});
    exports_to(A, with(4, "(node g (_0 d) 0011)"), {head, c0, f, {".names CC_0 d g", "10 1", "11 1", ".end"}});
    const std::string constants = sheet("a b", "b a", "0", {"1", "0"});
    head = {".model panel", ".inputs a b", ".outputs f g"};
    const Lines one_zero = {"(network 1)", "(node f () 1)", "(node g () 0)", "(count 0)", "(end)"};
    const Lines zero_one = {"(network 1)", "(node f () 0)", "(node g () 1)", "(count 0)", "(end)"};
    exports_to(constants, text(one_zero), {head, {".names f", "1", ".names g", ".end"}});
    exports_to(constants, text(zero_one), {head, {".names f", ".names g", "1", ".end"}});
    const std::string plain = sheet("x b y", "b", "2", {"0", "1", "(xor b x)"});
    const Lines luts = {"(network 1)", "(lut _0 (b) 00)", "(lut _1 (b) 11)"};
    const Lines nodes = {"(node f (x y) 0000)", "(node g (x y) 1111)", "(node h (_1 x y) 10000001)", "(count 2)", "(end)"};
    head = {".model panel", ".inputs x b y", ".outputs f g h"};
    const Lines cells = {".names b CC_0", ".names b CC_1", "0 1", "1 1"};
    const Lines outputs = {".names x y f", ".names x y g", "00 1", "01 1", "10 1", "11 1", ".names CC_1 x y h", "000 1", "111 1", ".end"};
    exports_to(plain, text(luts) + text(nodes), {head, cells, outputs});
}

// Ten inputs and four outputs with names of eight characters, six cells, every node over five of them: no text is longer.
void longest_text_in_blif()
{
    const std::string bound = "aaaaaaaa bbbbbbbb cccccccc dddddddd eeeeeeee", free = "vvvvvvvv wwwwwwww xxxxxxxx yyyyyyyy zzzzzzzz";
    const std::string f = "(or (and aaaaaaaa vvvvvvvv) (and bbbbbbbb wwwwwwww) (and cccccccc xxxxxxxx) (and dddddddd yyyyyyyy)"
                          " (and eeeeeeee zzzzzzzz))";
    Lines design = {"(design 1)", "(in " + bound + " " + free + ")", "(bound " + bound + ")", "(limit 6)"}, network = {"(network 1)"};
    for (char lut = '0'; lut < '6'; lut++)
        network.push_back(std::string("(lut _") + lut + " (" + bound + ") " + std::string(32, '1') + ")");
    for (char output = '0'; output < '4'; output++) {
        const std::string name = std::string("output0") + output;
        design.push_back("(out " + name + " " + f + ")");
        network.push_back("(node " + name + " (_0 _1 _2 _3 _4 " + free + ") " + std::string(1024, '1') + ")");
    }
    design.push_back("(end)");
    network.insert(network.end(), {"(count 6)", "(end)"});
    Exported e = call_export(text(design), text(network), CELLMAPPER_MAX_BLIF);
    expect(e.number == 0 && e.length == 55631, "the longest text has 55,631 bytes", text(design), text(network));
}

// ---- names in either case

// Sheet A with capitals, and Map's network of it, which has each name as the sheet gives it first.
const std::string MIXED = file("capitals.sheet"), MIXED_NETWORK = file("capitals.network");

void names_in_either_case()
{
    tables_to(MIXED, 1, "0001010001000001");
    const Lines head = {".model panel", ".inputs A B C d", ".outputs f G"}, cell = {".names A B C CC_0", "001 1", "010 1", "100 1", "111 1"};
    for (const std::string &n : {NETWORK, MIXED_NETWORK})
        exports_to(MIXED, n, {head, cell, {".names CC_0 d f", "01 1", "10 1", ".names CC_0 d G", "11 1", ".end"}});
    tables_to(sheet("And1 NOTE xOrs", "note aNd1", "2", {"(or AND1 (and NOTe XORS))"}), 0, "00011111");
}

// ---- PLA texts

const std::string BOARD = file("a.board");

// A PLA text with a second text: the lines before `.p`, and the cubes.
Source pla(const Lines &head, const Lines &cubes, const std::string &board = BOARD)
{
    return Source(text(head) + text({".p " + std::to_string(cubes.size())}) + text(cubes) + ".e\n", board);
}

// Sheet A as PLA: the four lines before `.p`, and the cubes from line 6 on.
const Source A_PLA(file("a.pla"), BOARD);
const Lines A_LINES = lines_of(A_PLA.text);
const Lines A_HEAD(A_LINES.begin(), A_LINES.begin() + 4), A_CUBES(A_LINES.begin() + 5, A_LINES.end() - 1);

// A refusal of the two texts, by all three.
void pla_refuses(const Source &source, unsigned number, size_t line)
{
    const std::string answer = std::to_string(number) + " line " + std::to_string(line);
    for (size_t room : {size_t(0), AMPLE}) {
        Tabled t = call_table(source, room ? 0 : SIZE_MAX, room);
        expect(t.number == number && t.line == line, "Table must refuse by " + answer, source);
        Mapped m = call_map(source, room);
        expect(m.number == number && m.line == line, "Map must refuse by " + answer, source);
    }
    expect(call_cause(source) == 0, "texts that are refused have no cause", source);
    for (const std::string &network : {NETWORK, std::string()}) {
        Checked c = call_check(source, network);
        expect(c.number == number && c.line == line, "Check must refuse by " + answer, source, network);
    }
}

// Map's cases of PLA texts: refused N line L, or the network.
void cases_of_plas()
{
    for (const Case &one : cases("plas", 3)) {
        const Source source(one.texts[0], one.texts[1]);
        const std::string &network = one.texts[2];
        const size_t number = one.answer.at(0) == "refused" ? number_at(one.answer, 1) : 0;
        if (number == 7 || number == 8) {
            expect(call_map(source, 0).number == number && call_map(source, AMPLE).number == number, "Map refuses a case by another number", source);
            expect((call_cause(source) != 0) == (number == 8), "there is a cause where Map refuses by 8", source);
        } else if (number != 0) {
            pla_refuses(source, unsigned(number), number_at(one.answer, 3));
        } else {
            for (size_t room : {network.size(), AMPLE})
                expect(call_map(source, room).network == network, "Map's network of a case\n" + network, source);
            expect(call_map(source, network.size() - 1).number == 9, "Map of a case in a buffer one byte short", source);
            Checked c = call_check(source, network);
            expect(c.number == 0 && c.differs == 0, "Check on the network of a case", source, network);
        }
    }
}

void plas_to_try()
{
    for (size_t room : {NETWORK.size(), AMPLE}) {
        Mapped m = call_map(A_PLA, room);
        expect(m.number == 0 && m.cells == 1 && m.network == NETWORK, "Map of sheet A as PLA", A_PLA, m.network);
    }
    expect(call_map(A_PLA, NETWORK.size() - 1).number == 9, "Map of sheet A as PLA, one byte short", A_PLA);
    expect(call_table(A_PLA, 0, 16).digits == "0110100110010110", "Table of sheet A as PLA", A_PLA);
    expect(call_table(A_PLA, 1, 16).digits == "0001010001000001", "Table of sheet A as PLA", A_PLA);
    expect(call_table(A_PLA, 1, 15).number == 9 && call_table(A_PLA, 2, 0).number == 6, "Table of sheet A as PLA refuses", A_PLA);
    Checked c = call_check(A_PLA, NETWORK);
    expect(c.number == 0 && c.differs == 0, "Check of sheet A as PLA", A_PLA, NETWORK);
    c = call_check(A_PLA, with(4, "(node g (_0 d) 0011)"));
    expect(c.number == 0 && c.differs == 1 && c.output == 1 && c.row == 2, "Check of sheet A as PLA, sheet J", A_PLA);
    c = call_check(A_PLA, with(5, "(count 2)"));
    expect(c.number == 10 && c.line == 5, "Check of sheet A as PLA, a bad network", A_PLA);
    const Source no_cells(A_PLA.text, "(bound a b c)\n(limit 0)\n");
    c = call_check(no_cells, NETWORK);
    expect(c.number == 11 && c.line == 2, "Check of sheet A as PLA, no cells", no_cells);
    expect(call_map(no_cells, 0).number == 8 && call_cause(no_cells) == 1, "Map of sheet A as PLA, no cells", no_cells);
    expect(call_cause(A_PLA) == 0, "sheet A as PLA has no cause", A_PLA);
    const Source none = pla(A_HEAD, {}), ones = pla(A_HEAD, {"---- 11"});
    expect(call_table(none, 0, 16).digits == std::string(16, '0'), "Table without cubes", none);
    expect(call_table(ones, 1, 16).digits == std::string(16, '1'), "Table of a cube without literals", ones);
    const Lines ten = {".i 10", ".o 4", ".ilb a b c d e v w x y z", ".ob f g h i"};
    const Source wide = pla(ten, {"1-1111111- 1001", "---------1 0010"}, "(bound e a)\n(limit 2)\n");
    std::string digits(1024, '0');
    for (size_t row : {0x2FE, 0x2FF, 0x3FE, 0x3FF})
        digits[row] = '1';
    expect(call_table(wide, 0, 1024).digits == digits && call_table(wide, 3, 1024).digits == digits, "Table of ten inputs", wide);
    expect(call_table(wide, 1, 1024).digits == std::string(1024, '0') && call_table(wide, 2, 1023).number == 9, "Table of ten inputs", wide);
    expect(call_map(wide, AMPLE).cells == 1, "Map of ten inputs and four outputs", wide);
}

void names_of_pla_in_either_case()
{
    const Source mixed = pla({".i 4", ".o 2", ".ilb A B C d", ".ob f G"}, A_CUBES, "(bound a B c)\n(limit 2)\n");
    Mapped m = call_map(mixed, AMPLE);
    expect(m.number == 0 && m.network == MIXED_NETWORK, "Map of sheet A as PLA with capitals", mixed, m.network);
    for (const std::string &n : {NETWORK, MIXED_NETWORK}) {
        Checked c = call_check(mixed, n);
        expect(c.number == 0 && c.differs == 0, "Check of sheet A as PLA with capitals", mixed, n);
    }
}

void causes_of_pla()
{
    const Lines head = {".i 3", ".o 3", ".ilb a b c", ".ob f g h"};
    const Lines a = {"0-1 100", "1-0 100"}, b = {"-01 010", "-10 010"}, both = {"001 001", "010 001", "100 001", "111 001"};
    Lines cubes = a;
    cubes.insert(cubes.end(), b.begin(), b.end());
    cubes.insert(cubes.end(), both.begin(), both.end());
    const size_t causes[] = {0b1, 0b11, 0b111, 0};
    for (size_t limit = 0; limit < 4; limit++) {
        const Source d = pla(head, cubes, "(bound a b)\n(limit " + std::to_string(limit) + ")\n");
        expect(call_map(d, AMPLE).number == (limit < 3 ? 8 : 0) && call_cause(d) == causes[limit], "the cause of sheet D as PLA", d);
    }
    const Source last = pla(head, {"--1 100", "-01 010", "-10 010", "0-1 001", "1-0 001"}, "(bound a b)\n(limit 1)\n");
    expect(call_cause(last) == 0b110, "the cause of the last two outputs as PLA", last);
}

// ---- the stack

// As many brackets as a text can open.
const std::string DEEPEST = [] {
    std::string s = text({"(design 1)", "(in a)", "(bound a)", "(limit 1)"}) + "(out f ";
    while (s.size() + 5 <= 4096)
        s += "(or ";
    return s + "\n";
}();

void *call_all(void *)
{
    uint8_t buffer[4];
    size_t line, a, b, c;
    const uint8_t *s = reinterpret_cast<const uint8_t *>(DEEPEST.data());
    size_t n = DEEPEST.size();
    bool refused = cellmapper_table(s, n, 0, buffer, sizeof buffer, &line, &a) == 2
        && cellmapper_map(s, n, buffer, sizeof buffer, &line, &a, &b) == 2
        && cellmapper_check(s, n, buffer, 0, &line, &a, &b, &c) == 2
        && cellmapper_export(s, n, s, n, buffer, sizeof buffer, &line, &a) == 2;
    expect(refused && line == 5, "a sheet of opening brackets", DEEPEST);
    bool none = cellmapper_cause(s, n, &a) == 0 && a == 0;
    expect(none && cellmapper_line(s, n, s, n, 2, 5, &a, &b, &c) == 0 && b + c + 1 == n, "the line of opening brackets, and no cause", DEEPEST);
    return nullptr;
}

void in_one_mebibyte_of_stack()
{
    pthread_attr_t small;
    pthread_t thread;
    bool good = pthread_attr_init(&small) == 0 && pthread_attr_setstacksize(&small, 1 << 20) == 0
        && pthread_create(&thread, &small, call_all, nullptr) == 0 && pthread_join(thread, nullptr) == 0;
    expect(good, "a thread with 1 MiB of stack", DEEPEST);
}

}

void worked_sheets()
{
    for (unsigned way = 0; way < 4; way++) {
        start_at_way(way);
        sheets_to_try();
        causes_to_try();
        lines_to_try();
        cases_of_sheets();
        cases_of_networks();
        cases_of_plas();
        texts_in_blif();
        longest_text_in_blif();
        names_in_either_case();
        plas_to_try();
        names_of_pla_in_either_case();
        causes_of_pla();
    }
    in_one_mebibyte_of_stack();
}
