// Map and Export on the repository's own sheets, from the folder that the repository is in, and the cause where Map refuses, which
// must be the first set of outputs that Map refuses alone. The sheets of bench/border/ are hard ones; the fewest cells of each, or
// `inf` where none serve, stand in its file ANSWERS, which two other searches gave.
// Beside the sheets of bench/first/ and examples/ stand their first networks, and beside a sheet the same panel as PLA, if any. Each
// letter of such a network is tried in the other case.
#include "files.h"

#include "calls.h"
#include "cause.h"
#include "compare.h"
#include "spelling.h"

#include <cctype>
#include <filesystem>
#include <fstream>
#include <sstream>

std::string contents(const std::string &path)
{
    std::ifstream file(path, std::ios::binary);
    expect(file.is_open(), "the file " + path + " is there", "");
    std::ostringstream all;
    all << file.rdbuf();
    return all.str();
}

namespace {

const size_t AMPLE = 8192;

// Map's answer, refusal 8 or a network to which Check must say "same".
Mapped mapped(const std::string &sheet)
{
    Mapped m = call_map(sheet, AMPLE);
    expect(m.number == 0 || m.number == 8, "Map's number on a sheet of the repository", sheet);
    Panel examined(sheet);
    size_t cause = call_cause(sheet);
    expect((cause != 0) == (m.number == 8), "there is a cause where Map refuses by 8", sheet);
    if (m.number == 0) {
        Checked c = call_check(sheet, m.network);
        expect(c.number == 0 && c.differs == 0, "Check on Map's network", sheet, m.network);
        compare_export(Beside(examined, m.network), 0);
    } else {
        compare_cause_with_map(examined, cause);
    }
    return m;
}

// A name may have either case, each letter for itself; the first word of a line, up to its first space, has small letters.
void letters_in_the_other_case(const std::string &sheet, const std::string &network)
{
    size_t line = 1;
    bool first = true;
    for (size_t at = 0; at < network.size(); at++) {
        first = network[at] == '\n' || (first && network[at] != ' ');
        line += network[at] == '\n';
        if (!isalpha(static_cast<unsigned char>(network[at])))
            continue;
        std::string other = turned(network, {Word{at, at + 1}});
        Checked c = call_check(sheet, other);
        bool good = first ? c.number == 10 && c.line == line : c.number == 0 && c.differs == 0;
        expect(good, "Check of a network with byte " + std::to_string(at) + " in the other case", sheet, other);
    }
}

// Map's network is the one beside the sheet, byte for byte; a sheet without a network beside it is refused by 8.
size_t networks(const char *folder)
{
    size_t sheets = 0;
    for (const auto &entry : std::filesystem::directory_iterator(folder)) {
        std::filesystem::path path = entry.path();
        if (path.extension() != ".sheet")
            continue;
        sheets++;
        std::string sheet = contents(path.string());
        Mapped m = mapped(sheet);
        if (std::filesystem::exists(path.replace_extension(".network"))) {
            expect(m.number == 0 && m.network == contents(path.string()), "Map's network is that of " + path.string(), sheet, m.network);
            letters_in_the_other_case(sheet, m.network);
        } else {
            expect(m.number == 8, "a sheet without a network is refused by 8", sheet, m.network);
        }
    }
    return sheets;
}

// A panel as PLA has the tables of the sheet beside it, and its network.
size_t plas(const char *folder)
{
    size_t panels = 0;
    for (const auto &entry : std::filesystem::directory_iterator(folder)) {
        std::filesystem::path path = entry.path();
        if (path.extension() != ".pla")
            continue;
        panels++;
        std::string pla = contents(path.string()), board = contents(path.replace_extension(".board").string());
        Panel as_pla(Source(pla, board)), sheet(contents(path.replace_extension(".sheet").string()));
        expect(as_pla.refusal.number == 0 && sheet.refusal.number == 0, "the panel of " + path.string() + " is valid", as_pla.source);
        std::string network = compare_both_ways(sheet, as_pla, 0);
        expect(network == contents(path.replace_extension(".network").string()), "Map's network is that of " + path.string(), as_pla.source, network);
        check_both_ways(sheet, as_pla, network);
        cause_both_ways(sheet, 0, as_pla);
    }
    return panels;
}

void border()
{
    std::ifstream answers("bench/border/ANSWERS");
    std::string name, fewest, nodes;
    size_t sheets = 0;
    for (; answers >> name >> fewest >> nodes; sheets++) {
        std::string sheet = contents("bench/border/" + name + ".sheet");
        Mapped m = mapped(sheet);
        expect((m.number == 8 ? "inf" : std::to_string(m.cells)) == fewest, "the fewest cells of " + name + " are " + fewest, sheet);
    }
    expect(sheets >= 36, "there are 36 sheets in bench/border", "");
}

}

void sheets_of_the_repository()
{
    expect(networks("examples") >= 6, "there are six example sheets", "");
    expect(plas("examples") >= 1, "there is an example as PLA", "");
    expect(networks("bench/first") >= 40, "there are 40 sheets in bench/first", "");
    border();
}
