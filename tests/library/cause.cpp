#include "cause.h"

#include "fewest.h"
#include "first.h"

#include <algorithm>
#include <optional>
#include <sstream>

CauseTally causes_of_sheets, causes_of_plas;
unsigned long causes_settled, causes_left_out;

namespace {

const size_t AMPLE = 8192;

// The nodes that the oracle's searches for one cause may take in all.
const unsigned long NODES = 5000;

std::vector<size_t> members(size_t set)
{
    std::vector<size_t> list;
    for (size_t o = 0; set >> o; o++)
        if (set >> o & 1)
            list.push_back(o);
    return list;
}

std::string named(size_t set)
{
    std::string all = set ? "" : " none";
    for (size_t o : members(set))
        all += " " + std::to_string(o);
    return all;
}

// The words of a line, those after the first by the set.
std::string some_names(const std::string &line, size_t set)
{
    std::istringstream words(line);
    std::string all, word;
    words >> all;
    for (size_t o = 0; words >> word; o++)
        if (set >> o & 1)
            all += " " + word;
    return all;
}

std::string some_marks(const std::string &cube, size_t set)
{
    size_t cut = cube.find(' ') + 1;
    std::string all = cube.substr(0, cut);
    for (size_t o : members(set))
        all += cube[cut + o];
    return all;
}

// Whether these outputs alone need more cells than the limit: by trying all tables where they are few, else by a search.
std::optional<bool> lacks_cells(const oracle::Design &design, size_t set, unsigned long &nodes)
{
    oracle::Design some = design;
    some.outputs.clear();
    for (size_t o : members(set))
        some.outputs.push_back(design.outputs[o]);
    if (design.bound.size() <= 2)
        return fewest(some) == NONE_SERVE;
    std::optional<bool> within = within_limit(some, nodes);
    return within ? std::optional<bool>(!*within) : std::nullopt;
}

// The oracle's cause of a design that no network within its limit computes.
std::optional<size_t> cause_of(const oracle::Design &design)
{
    unsigned long nodes = NODES;
    for (size_t set : sets_in_order(design.outputs.size())) {
        std::optional<bool> lacks = lacks_cells(design, set, nodes);
        if (!lacks)
            return std::nullopt;
        if (*lacks)
            return set;
    }
    return 0;
}

}

std::vector<size_t> sets_in_order(size_t outputs)
{
    std::vector<size_t> sets;
    for (size_t set = 1; set < size_t(1) << outputs; set++)
        sets.push_back(set);
    std::sort(sets.begin(), sets.end(), [](size_t a, size_t b) {
        std::vector<size_t> of_a = members(a), of_b = members(b);
        return of_a.size() != of_b.size() ? of_a.size() < of_b.size() : of_a < of_b;
    });
    return sets;
}

Source with_outputs(const Source &source, size_t set)
{
    std::vector<std::string> lines = oracle::lines(source.text);
    std::string text;
    if (source.pla) {
        lines[1] = ".o " + std::to_string(members(set).size());
        lines[3] = some_names(lines[3], set);
        for (size_t i = 5; i + 1 < lines.size(); i++)
            lines[i] = some_marks(lines[i], set);
    }
    for (size_t i = 0; i < lines.size(); i++)
        if (source.pla || i < 4 || i + 1 == lines.size() || set >> (i - 4) & 1)
            text += lines[i] + "\n";
    return source.pla ? Source(text, source.board) : Source(text);
}

unsigned answer_of_map(const Panel &panel, const std::string &mapped)
{
    if (panel.refusal.number || !mapped.empty())
        return panel.refusal.number;
    return oracle::global_classes(panel.design) > 16 ? 7 : 8;
}

size_t compare_cause(const Panel &panel, unsigned number, bool ask)
{
    std::optional<size_t> wanted = number == 8 ? cause_of(panel.design) : 0;
    if (number == 8)
        (wanted ? causes_settled : causes_left_out)++;
    if (!wanted && !ask)
        return 0;
    size_t said = call_cause(panel.source);
    expect((said != 0) == (number == 8), "there is a cause where Map refuses by 8, and there alone; said:" + named(said), panel.source);
    if (wanted)
        expect(said == *wanted, "the cause is" + named(*wanted) + ", not" + named(said), panel.source);
    CauseTally &tally = panel.source.pla ? causes_of_plas : causes_of_sheets;
    if (said)
        tally.sets[said]++;
    else
        tally.none[number]++;
    return said;
}

void cause_both_ways(const Panel &sheet, size_t of_sheet, const Panel &pla)
{
    size_t of_pla = call_cause(pla.source);
    if (of_pla)
        causes_of_plas.sets[of_pla]++;
    expect(of_sheet == of_pla, "the cause as of the sheet," + named(of_sheet) + ", not" + named(of_pla) + "\n" + sheet.source.text, pla.source);
}

void compare_cause_with_map(const Panel &panel, size_t cause)
{
    for (size_t set : sets_in_order(panel.design.outputs.size())) {
        Mapped m = call_map(with_outputs(panel.source, set), AMPLE);
        if (set == cause) {
            expect(m.number == 8, "the outputs" + named(set) + " alone are refused by 8", panel.source);
            return;
        }
        expect(m.number == 0, "the outputs" + named(set) + " alone map, and stand before" + named(cause), panel.source, m.network);
    }
}
