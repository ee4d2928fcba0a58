// main [CASES [SEED]]: the exported functions on sheets worked by hand, on the repository's sheets, and then on CASES random
// design sheets, each with a random network sheet, compared with the oracle; then a fifth as many random PLA texts with a second
// text, and a fifth as many panels that are written both ways, of which the functions must say the same; then a fortieth as many
// panels near the border, each with as many cells as it needs and with fewer, and a tenth as many pairs of texts of any bytes, of
// which lines are asked for. Shows progress on standard error, and at the end how often each answer came.
#include "cause.h"
#include "compare.h"
#include "files.h"
#include "generate.h"
#include "lines.h"
#include "worked.h"

#include <chrono>
#include <cstdio>
#include <cstdlib>
#include <set>
#include <unistd.h>

namespace {

const size_t AMPLE = 8192;

Named named(const oracle::Refusal &refusal)
{
    return Named{refusal.number, refusal.line};
}

// The lines that the refusals name, and others: some at random, now and then all.
void some_lines(Generator &random, const Beside &beside)
{
    const std::string &sheet = beside.panel.source.text;
    std::vector<Named> asked = {named(beside.panel.refusal), named(beside.wanted.refusal)};
    while (asked.size() < 6)
        asked.push_back(Named{random.below(21), random.below(12)});
    if (random.once_in(20))
        for (const Named &n : all_named(sheet, beside.text))
            asked.push_back(n);
    compare_lines(sheet, beside.text, asked, 2);
}

void one_panel(Generator &random, const Panel &panel)
{
    static const Panel PLAIN("(design 1)\n(in a)\n(bound a)\n(limit 1)\n(out f a)\n(end)\n");
    size_t more = random.once_in(4) ? random.below(1000) : 0;
    compare_table(panel, random.once_in(50) ? ~size_t(0) : random.below(5), more);
    std::string mapped = compare_map(panel, more, random.once_in(10));
    const oracle::Design &design = panel.refusal.number ? PLAIN.design : panel.design;
    Beside beside(panel, random.network_sheet(design, mapped));
    compare_check(beside);
    compare_cause(panel, answer_of_map(panel, mapped), true);
    if (!panel.source.pla) {
        compare_export(beside, more);
        some_lines(random, beside);
    }
}

void one_sheet(Generator &random)
{
    one_panel(random, Panel(random.design_sheet()));
}

void one_pla(Generator &random)
{
    one_panel(random, Panel(random.pla()));
}

// The panel is written both ways by the test, so the oracle must find the two the same before the library is asked.
void one_both_ways(Generator &random)
{
    std::string text;
    Source source("");
    random.panel(text, source);
    Panel sheet(text), pla(source);
    expect(pla.refusal.number == 0, "the test's own pair is valid", source);
    for (size_t o = 0; o < sheet.design.outputs.size(); o++)
        expect(pla.design.outputs[o].table == sheet.design.outputs[o].table, "the test's own cubes\n" + text, source);
    std::string mapped = compare_both_ways(sheet, pla, random.below(50));
    if (random.once_in(3))
        cause_both_ways(sheet, call_cause(sheet.source), pla);
    if (!mapped.empty())
        check_both_ways(sheet, pla, mapped);
    for (size_t times = 2; times > 0; times--)
        check_both_ways(sheet, pla, random.network_sheet(sheet.design, mapped));
}

// The panel with another limit than 6.
Panel with_limit(const Panel &panel, size_t limit)
{
    Panel other = panel;
    std::string &text = panel.source.pla ? other.source.board : other.source.text;
    text.replace(text.find("(limit 6)"), 9, "(limit " + std::to_string(limit) + ")");
    other.design.limit = unsigned(limit);
    return other;
}

// With as many cells as the fewest there is no cause, and with fewer there is one.
void one_at_the_border(Generator &random)
{
    std::string text;
    Source source("");
    random.border_panel(text, source);
    Panel sheet(text), pla(source);
    Mapped m = call_map(text, AMPLE);
    size_t fewest = m.number == 0 ? m.cells : 7;
    for (size_t limit : std::set<size_t>{fewest, fewest - 1, random.below(fewest + 1)}) {
        if (limit > 6)
            continue;
        Panel sheet_here = with_limit(sheet, limit), pla_here = with_limit(pla, limit);
        size_t cause = compare_cause(sheet_here, m.number == 7 ? 7 : limit < fewest ? 8 : 0, true);
        cause_both_ways(sheet_here, cause, pla_here);
        if (cause)
            compare_cause_with_map(random.once_in(4) ? pla_here : sheet_here, cause);
    }
}

void one_pair_of_texts(Generator &random)
{
    std::string sheet = random.bytes(), network = random.bytes();
    compare_lines(sheet, network, all_named(sheet, network));
}

// How many cases are done: on a terminal a counter that is written over, elsewhere a line every few seconds.
void all_cases(const char *what, unsigned long cases, Generator &random, void (*one)(Generator &))
{
    typedef std::chrono::steady_clock Clock;
    const bool terminal = isatty(STDERR_FILENO);
    const auto pause = std::chrono::milliseconds(terminal ? 100 : 5000);
    Clock::time_point next = Clock::now() + pause;
    for (unsigned long i = 0; i < cases; i++) {
        one(random);
        if (Clock::now() < next)
            continue;
        next = Clock::now() + pause;
        fprintf(stderr, "%slibrary: %lu of %lu %s, %lu %%%s", terminal ? "\r" : "", i + 1, cases, what, 100 * (i + 1) / cases, terminal ? " " : "\n");
    }
    fprintf(stderr, "%slibrary: %lu %s done%s\n", terminal ? "\r" : "", cases, what, terminal ? "                    " : "");
}

// Prints how often each answer came, and of networks that Check compares how many were the same; each must have come.
void require(const char *name, Tally &tally, const std::vector<unsigned> &answers)
{
    printf("%s:", name);
    for (unsigned a : answers) {
        std::string done = tally.count(DIFFERS) ? "same" : "done";
        std::string what = a == DIFFERS ? "differs" : a == 0 ? done : "by " + std::to_string(a);
        printf(" %s %lu;", what.c_str(), tally[a]);
        if (tally[a] == 0) {
            printf("\nFAILED: this answer of %s never came\n", name);
            exit(1);
        }
    }
    printf("\n");
}

// Nearly all of Map's answers must have been compared byte for byte.
void require_firsts()
{
    printf("First networks: compared %lu; left out %lu;\n", firsts, not_settled);
    if (firsts < 50 * not_settled || firsts == 0) {
        printf("FAILED: too many were left out\n");
        exit(1);
    }
}

// Every set of outputs must have been a cause, and every other answer of Map must have had none.
void require_causes(const char *name, CauseTally &tally, const std::vector<unsigned> &answers)
{
    printf("%s:", name);
    bool good = true;
    for (size_t set : sets_in_order(4)) {
        std::string outputs;
        for (size_t o = 0; o < 4; o++)
            outputs += set >> o & 1 ? std::to_string(o) : "";
        printf(" %s %lu;", outputs.c_str(), tally.sets[set]);
        good = good && tally.sets[set] > 0;
    }
    for (unsigned a : answers) {
        printf(" none %s %lu;", a == 0 ? "mapped" : ("by " + std::to_string(a)).c_str(), tally.none[a]);
        good = good && tally.none[a] > 0;
    }
    printf("\n");
    if (!good) {
        printf("FAILED: one of these never came\n");
        exit(1);
    }
}

// Nearly all causes must have been compared with the oracle's.
void require_settled()
{
    printf("Causes: compared %lu; left out %lu;\n", causes_settled, causes_left_out);
    if (causes_settled < 50 * causes_left_out) {
        printf("FAILED: too many were left out\n");
        exit(1);
    }
}

void require_lines()
{
    printf("Lines of refusals:");
    bool good = true;
    for (size_t number : {2, 3, 4, 5, 10, 11}) {
        bool may_miss = number == 2 || number == 10;
        printf(" by %zu %lu; missing %lu;", number, of_lines.within[number], of_lines.past[number]);
        good = good && of_lines.within[number] > 0 && (of_lines.past[number] > 0) == may_miss;
    }
    printf("\n");
    if (!good) {
        printf("FAILED: one of these never came, or one came that cannot\n");
        exit(1);
    }
}

void require_shapes()
{
    printf("Export of networks:");
    for (const auto &shape : shapes) {
        printf(" %s %lu;", shape.first.c_str(), shape.second);
        if (shape.second == 0) {
            printf("\nFAILED: no such network was exported\n");
            exit(1);
        }
    }
    printf("\n");
}

}

int main(int argc, char **argv)
{
    unsigned long cases = argc > 1 ? strtoul(argv[1], nullptr, 10) : 100000, seed = argc > 2 ? strtoul(argv[2], nullptr, 10) : 1;
    worked_sheets();
    fprintf(stderr, "library: worked sheets and refusals as they must be\n");
    sheets_of_the_repository();
    fprintf(stderr, "library: the sheets of examples/, bench/border/ and bench/first/ as they must be\n");
    Generator random(seed);
    all_cases("random design sheets", cases, random, one_sheet);
    all_cases("random PLA texts", cases / 5, random, one_pla);
    all_cases("panels written both ways", cases / 5, random, one_both_ways);
    all_cases("panels near the border", cases / 40, random, one_at_the_border);
    all_cases("pairs of texts of any bytes", cases / 10, random, one_pair_of_texts);
    if (cases >= 10000) {
        require("Table", of_sheets.tables, {0, 1, 2, 3, 4, 5, 6, 9});
        require("Map", of_sheets.maps, {0, 1, 2, 3, 4, 5, 7, 8, 9});
        require("Check", of_sheets.checks, {0, DIFFERS, 1, 2, 3, 4, 5, 10, 11});
        require("Export", of_sheets.exports, {0, DIFFERS, 1, 2, 3, 4, 5, 9, 10, 11});
        require("Table of PLA", of_plas.tables, {0, 1, 2, 3, 4, 5, 6, 9, 12, 13, 14});
        require("Map of PLA", of_plas.maps, {0, 1, 2, 3, 4, 5, 7, 8, 9, 12, 13, 14});
        require("Check of PLA", of_plas.checks, {0, DIFFERS, 1, 2, 3, 4, 5, 10, 11, 12, 13, 14});
        require_settled();
        require_lines();
        require_shapes();
        require_firsts();
    }
    // Some sets of outputs are rarely the cause: of 10,000 cases four times.
    if (cases >= 25000) {
        require_causes("Cause", causes_of_sheets, {0, 1, 2, 3, 4, 5, 7});
        require_causes("Cause of PLA", causes_of_plas, {0, 1, 2, 3, 4, 5, 12, 13, 14});
    }
    printf("library: %lu design sheets and as many network sheets, %lu PLA texts and as many panels both ways, ", cases, cases / 5);
    printf("%lu panels near the border and %lu pairs of texts from seed %lu, all answers as they must be\n", cases / 40, cases / 10, seed);
    return 0;
}
