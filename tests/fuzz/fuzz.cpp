// The exported functions under libFuzzer, compared with the oracle of tests/library/. An input is a design sheet, a byte
// 0x00 and a network sheet; or, where it begins with a dot, which no sheet that is spelled right does, a PLA text, a byte 0x00, a
// second text, a byte 0x00 and a network sheet. The last two 0x00 part these three, since a PLA text may hold one itself. The
// archive has no coverage counters, so it is the oracle's branches, one for each rule of the specification, that lead the search. The
// last bytes of an input are also numbers and lines of refusals, whose lines are asked for. With the names of a text in the other case
// the answers must be the same, by the archive alone.
#include "../library/cause.h"
#include "../library/compare.h"
#include "../library/lines.h"
#include "../library/spelling.h"

#include <algorithm>
#include <cstdint>
#include <cstring>

static const size_t LAST = 16;

// Numbers and lines near those of refusals from pairs of bytes, and of any size from all of them.
static std::vector<Named> named_by(const uint8_t *data, size_t size)
{
    uint8_t last[LAST] = {};
    std::copy(data + size - std::min(size, LAST), data + size, last);
    std::vector<Named> named(1);
    memcpy(&named[0].number, last, sizeof(size_t));
    memcpy(&named[0].line, last + sizeof(size_t), sizeof(size_t));
    for (size_t i = 0; i + 1 < LAST; i++)
        named.push_back(Named{last[i] % 22u, last[i + 1] % 32u});
    return named;
}

// Of a PLA text no line is asked for; its second text stands for a sheet.
static void compare_named(const Beside &beside, std::vector<Named> named)
{
    const Source &source = beside.panel.source;
    for (const oracle::Refusal &refusal : {beside.panel.refusal, beside.wanted.refusal})
        named.insert(named.begin(), Named{refusal.number, refusal.line});
    compare_lines(source.pla ? source.board : source.text, beside.text, named);
}

static void compare_network(const Panel &panel, const std::string &network, const std::vector<Named> &named, size_t more)
{
    Beside beside(panel, network);
    compare_check(beside);
    compare_named(beside, named);
    if (!panel.source.pla)
        compare_export(beside, more);
}

static const size_t AMPLE = 8192;

static Source in_the_other_case(const Source &source)
{
    std::string text = turned(source.text, names_of_sheet(source.text));
    return source.pla ? Source(text, turned(source.board, names_of_sheet(source.board))) : Source(text);
}

// Map spells each name as the panel gives it first, so its network has the other case in all of them.
static void map_in_the_other_case(const Source &source)
{
    Mapped m = call_map(source, AMPLE), other = call_map(in_the_other_case(source), AMPLE);
    bool same = other.number == m.number && other.line == m.line && other.cells == m.cells;
    same = same && other.network == turned(m.network, names_of_network(m.network));
    expect(same, "Map with names in the other case\n" + other.network, source, m.network);
}

static void check_in_the_other_case(const Source &source, const std::string &network)
{
    Checked c = call_check(source, network);
    std::string turned_network = turned(network, names_of_network(network));
    for (const Checked &other : {call_check(source, turned_network), call_check(in_the_other_case(source), network)}) {
        bool same = other.number == c.number && other.line == c.line && other.differs == c.differs;
        expect(same && other.output == c.output && other.row == c.row, "Check with names in the other case", source, network);
    }
}

static void compare_panel(const Panel &panel, const std::string &network, const std::vector<Named> &named, size_t more)
{
    for (size_t output = 0; output < 5; output++)
        compare_table(panel, output, more);
    std::string mapped = compare_map(panel, more, false);
    compare_cause(panel, answer_of_map(panel, mapped), false);
    if (!mapped.empty())
        compare_network(panel, mapped, named, more);
    compare_network(panel, network, named, more);
    map_in_the_other_case(panel.source);
    check_in_the_other_case(panel.source, network);
}

// Texts somewhat longer than the longest that pass the question on their size are tried, and none that is longer than that.
static const size_t LONGEST_PLA = 36000, LONGEST = 12400;

// Takes what stands after the 0x00 at `cut` off the text.
static std::string taken(std::string &text, size_t cut)
{
    std::string rest = cut == std::string::npos ? "" : text.substr(cut + 1);
    text.resize(std::min(cut, text.size()));
    return rest;
}

extern "C" int LLVMFuzzerTestOneInput(const uint8_t *data, size_t size)
{
    std::string text(reinterpret_cast<const char *>(data), size);
    bool pla = !text.empty() && text[0] == '.';
    std::string network = taken(text, pla ? text.rfind('\0') : text.find('\0'));
    std::string board = pla ? taken(text, text.rfind('\0')) : "";
    if (text.size() <= (pla ? LONGEST_PLA : LONGEST) && board.size() <= LONGEST && network.size() <= LONGEST)
        compare_panel(Panel(pla ? Source(text, board) : Source(text)), network, named_by(data, size), size);
    return 0;
}
