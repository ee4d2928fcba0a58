#include "generate.h"

#include <algorithm>
#include <cctype>

using std::string;
typedef std::vector<string> Names;

namespace {

const string SHEET_BYTES = "() \n01_abzAZ", PLA_BYTES(" .01-2~ioplbe\nabzAZ\0\xFF", 21);
const string LETTERS = "abcdefghijklmnopqrstuvwxyzABCDEFGHIJKLMNOPQRSTUVWXYZ";

string listed(const string &word, const Names &names)
{
    string line = "(" + word;
    for (const string &n : names)
        line += " " + n;
    return line + ")\n";
}

bool among(const string &name, const Names &names)
{
    return std::find(names.begin(), names.end(), name) != names.end();
}

}

// A design sheet before it is put together. Lines are made of these parts as they stand, whatever they hold.
struct Generator::Draft {
    Names inputs, bound;
    string limit;
    std::vector<std::pair<string, string>> outputs;

    string text() const
    {
        string all = "(design 1)\n" + listed("in", inputs) + listed("bound", bound) + "(limit " + limit + ")\n";
        for (const auto &o : outputs)
            all += "(out " + o.first + " " + o.second + ")\n";
        return all + "(end)\n";
    }
};

// A PLA text and a second text before they are put together; `counts` are the numbers of `.i`, `.o` and `.p` where they are not
// those that the lists have, and `rest` is what stands after `.e`.
struct Generator::PlaDraft {
    Names inputs, outputs, bound;
    std::vector<std::pair<string, string>> cubes;
    string limit, counts[3], rest;

    Source source() const
    {
        const size_t sizes[] = {inputs.size(), outputs.size(), cubes.size()};
        auto count = [&](const char *word, size_t i) { return word + (counts[i].empty() ? std::to_string(sizes[i]) : counts[i]) + "\n"; };
        auto names = [](string line, const Names &list) {
            for (const string &n : list)
                line += " " + n;
            return line + "\n";
        };
        string text = count(".i ", 0) + count(".o ", 1) + names(".ilb", inputs) + names(".ob", outputs) + count(".p ", 2);
        for (const auto &cube : cubes)
            text += cube.first + " " + cube.second + "\n";
        return Source(text + ".e\n" + rest, listed("bound", bound) + "(limit " + limit + ")\n");
    }
};

// ---- design sheets

string Generator::name()
{
    static const char *const SPECIAL[] = {"in", "out", "end", "bound", "limit", "design", "andy", "not1", "orx", "xor0", "lut", "node", "abcdefgh", "z9999999"};
    if (once_in(6))
        return SPECIAL[below(sizeof SPECIAL / sizeof *SPECIAL)];
    string n(1, char('a' + below(26)));
    while (n.size() < 8 && once_in(3))
        n += "abcxyz019"[below(9)];
    return n == "or" ? "o" : n;
}

string Generator::formula(const Names &names, size_t size)
{
    if (size < 2)
        return once_in(20) ? (once_in(2) ? "0" : "1") : names[below(names.size())];
    if (once_in(5))
        return "(not " + formula(names, size - 1) + ")";
    static const char *const WORDS[] = {"and", "or", "xor"};
    string f = string("(") + WORDS[below(3)];
    size_t operands = 2 + (once_in(3) ? below(4) : 0);
    for (size_t i = 0; i < operands; i++)
        f += " " + formula(names, size / operands);
    return f + ")";
}

// Brackets around depth 32, on either side of it.
string Generator::deep_formula(const Names &names)
{
    string f = names[below(names.size())];
    for (size_t depth = 30 + below(5); depth > 0; depth--)
        f = once_in(2) ? "(not " + f + ")" : "(xor " + names[below(names.size())] + " " + f + ")";
    return f;
}

Names Generator::shuffled(Names names)
{
    for (size_t i = names.size(); i > 1; i--)
        std::swap(names[i - 1], names[below(i)]);
    return names;
}

Generator::Draft Generator::draft()
{
    Draft d;
    size_t inputs = 1 + below(once_in(12) ? 10 : 6);
    while (d.inputs.size() < inputs) {
        string n = name();
        if (!among(n, d.inputs))
            d.inputs.push_back(n);
    }
    d.bound = shuffled(d.inputs);
    d.bound.resize(1 + below(std::min<size_t>(5, inputs)));
    d.limit = std::to_string(below(7));
    size_t outputs = 1 + below(4);
    while (d.outputs.size() < outputs) {
        string n = name();
        Names taken = d.inputs;
        for (const auto &o : d.outputs)
            taken.push_back(o.first);
        if (!among(n, taken))
            d.outputs.emplace_back(n, once_in(40) ? deep_formula(d.inputs) : formula(d.inputs, 1 + below(30)));
    }
    return d;
}

// The pool's formulas are the tables; the more of them an output reads, the more cells it needs alone.
Generator::Draft Generator::border_draft()
{
    static const char *const FORMS[] = {"(xor P x)", "(xor P x)", "(and P x)", "(or x P)", "(or (and P x) (and Q y))", "(xor (and P x) (and Q y))",
        "(or (and P x) (and Q (not x)) (and R y))", "(xor P Q x)"};
    Draft d;
    const size_t bound = 2 + below(4), outputs = once_in(8) ? 1 + below(3) : 4, forms = once_in(2) ? 4 : 8;
    for (char c = 'a'; d.bound.size() < bound; c++)
        d.bound.push_back(string(1, c));
    d.inputs = shuffled(d.bound);
    d.inputs.insert(d.inputs.begin() + long(below(bound + 1)), {"x", "y"});
    Names pool;
    for (size_t n = 3 + below(3); n > 0; n--)
        pool.push_back(formula(d.bound, 1 + below(bound + 2)));
    d.limit = "6";
    for (size_t o = 0; o < outputs; o++) {
        string f;
        for (const char *c = FORMS[below(forms)]; *c; c++)
            f += *c >= 'P' && *c <= 'R' ? pool[below(pool.size())] : string(1, *c);
        d.outputs.emplace_back(string("o") + "zyxw"[o], o > 0 && once_in(8) ? d.outputs[below(o)].second : f);
    }
    // Where the first outputs need no cells, the cause is among those after them.
    for (size_t o = 0; o + 1 < outputs && once_in(o == 0 ? 3 : 2); o++)
        d.outputs[o].second = once_in(2) ? "(and x y)" : "y";
    return d;
}

void Generator::break_a_rule(Draft &d)
{
    static const char *const LIMITS[] = {"7", "10", "999", "00", "01", "1000", "", "x", "-1"};
    static const char *const WORDS[] = {"and", "not", "0", "1a", "a_", "abcdefghi", "", "()", "(not a)"};
    string &some = d.inputs[below(d.inputs.size())];
    switch (below(12)) {
    case 0: d.inputs.push_back(some); break;
    case 1: d.bound.push_back(d.bound[0]); break;
    case 2: d.bound.push_back("unknown"); break;
    case 3: d.limit = LIMITS[below(9)]; break;
    case 4: some = WORDS[below(9)]; break;
    case 5: d.bound[below(d.bound.size())] = WORDS[below(9)]; break;
    case 6: d.outputs[below(d.outputs.size())].second = formula({"a", "b", once_in(3) ? "xor" : "unknown"}, 9); break;
    case 7: d.outputs[below(d.outputs.size())].first = once_in(2) ? some : WORDS[below(9)]; break;
    case 8: d.outputs.push_back(d.outputs[0]); break;
    case 9: d.outputs.clear(); break;
    case 10:
        while (d.inputs.size() < 11)
            d.inputs.push_back("more" + std::to_string(d.inputs.size()));
        break;
    default:
        while (d.outputs.size() < 5)
            d.outputs.emplace_back("more" + std::to_string(d.outputs.size()), "1");
        break;
    }
}

string Generator::design_sheet()
{
    if (once_in(100)) {
        static const char BYTES[] = {'(', ')', ' ', '\n', 'a', 'n', 'd', 'o', 'r', 'x', '0', '1', 0, 0x7E, 0x7F, char(0xFF)};
        string bytes(below(60), ' ');
        for (char &c : bytes)
            c = BYTES[below(sizeof BYTES)];
        return bytes;
    }
    Draft d = draft();
    size_t kind = below(10);
    if (kind == 0 || kind == 1)
        break_a_rule(d);
    string text = sheet_in_any_case(d.text());
    if (once_in(500))
        text += string(4096, '\n');
    return kind == 2 || kind == 3 ? damaged(text, SHEET_BYTES) : text;
}

// ---- PLA texts

Generator::PlaDraft Generator::pla_draft()
{
    Draft d = draft();
    PlaDraft p;
    p.inputs = d.inputs;
    p.bound = d.bound;
    p.limit = d.limit;
    for (const auto &o : d.outputs)
        p.outputs.push_back(o.first);
    const size_t dashes = below(5);
    for (size_t n = below(once_in(10) ? 60 : 9); n > 0; n--) {
        string literals, marks;
        for (size_t i = 0; i < p.inputs.size(); i++)
            literals += below(5) < dashes ? '-' : "01"[below(2)];
        for (size_t i = 0; i < p.outputs.size(); i++)
            marks += "01"[below(2)];
        p.cubes.emplace_back(literals, marks);
    }
    return p;
}

void Generator::break_a_rule(PlaDraft &p)
{
    static const char *const COUNTS[] = {"0", "00", "01", "1", "2", "10", "11", "99999", "100000", "", " 1", "1 ", "x", "-1"};
    static const char *const LIMITS[] = {"7", "999", "1000", "07", "", "x", "6)\n(limit 6", "6)\n"};
    static const char *const WORDS[] = {"and", "xor", "0", "1a", "a_", "abcdefghi", "", "a b", "()"};
    static const char MARKS[] = {'~', '2', '-', '/', ' ', '\r', '\t', '\0', '\x7F', '\x80', '\xFF', '4'};
    string &some = p.inputs[below(p.inputs.size())], &other = p.outputs[below(p.outputs.size())];
    switch (below(16)) {
    case 0: p.counts[below(3)] = COUNTS[below(14)]; break;
    case 1: p.counts[2] = std::to_string(p.cubes.size() + 1); break;
    case 2: p.counts[2] = std::to_string(p.cubes.empty() ? 0 : p.cubes.size() - 1); break;
    case 3: p.rest = once_in(2) ? "\n" : ".e"; break;
    case 4: some = WORDS[below(9)]; break;
    case 5: other = WORDS[below(9)]; break;
    case 6: p.inputs.push_back(some); break;
    case 7: p.outputs.push_back(once_in(2) ? some : other); break;
    case 8: some = p.inputs[0]; break;
    case 9: other = once_in(2) ? p.inputs[0] : p.outputs[0]; break;
    case 10: p.bound.push_back(p.bound[0]); break;
    case 11: p.bound.insert(p.bound.begin(), once_in(2) ? "unknown" : WORDS[below(9)]); break;
    case 12: p.limit = LIMITS[below(8)]; break;
    case 13:
        if (!p.cubes.empty())
            p.cubes[below(p.cubes.size())].second[below(p.outputs.size())] = MARKS[below(sizeof MARKS)];
        break;
    case 14:
        while (p.inputs.size() < 11)
            p.inputs.push_back("more" + std::to_string(p.inputs.size()));
        break;
    default:
        while (p.outputs.size() < 5)
            p.outputs.push_back("some" + std::to_string(p.outputs.size()));
        break;
    }
    // Where there are more names now, the cubes follow more often than not.
    if (!once_in(4))
        for (auto &cube : p.cubes) {
            cube.first.resize(p.inputs.size(), '-');
            cube.second.resize(p.outputs.size(), '0');
        }
}

Source Generator::pla()
{
    PlaDraft p = pla_draft();
    size_t kind = below(10);
    for (size_t times = kind == 0 ? 2 : kind < 4 ? 1 : 0; times > 0; times--)
        break_a_rule(p);
    if (once_in(200)) {
        // near the most bytes that a text may have, on either side of it: cubes for no output
        string idle(p.inputs.size(), '-'), none(p.outputs.size(), '0');
        size_t one = idle.size() + none.size() + 2, size = p.source().text.size();
        size_t more = (32768 - size) / one - below(2);
        p.cubes.resize(p.cubes.size() + more, {idle, none});
    }
    Source source = p.source();
    source = Source(sheet_in_any_case(source.text), sheet_in_any_case(source.board));
    if (kind == 4 || kind == 5)
        source.text = damaged(source.text, PLA_BYTES);
    if (kind == 6)
        source.board = damaged(source.board, SHEET_BYTES);
    return source;
}

// A cube that covers a row and rows of value 1 alone, grown by leaving out inputs in a random order.
string Generator::cube_around(size_t row, size_t inputs, const string &table)
{
    string cube;
    std::vector<size_t> rows = {row}, places;
    for (size_t i = 0; i < inputs; i++) {
        cube += "01"[row >> (inputs - 1 - i) & 1];
        places.insert(places.begin() + long(below(i + 1)), i);
    }
    for (size_t place : places) {
        std::vector<size_t> both = rows;
        for (size_t r : rows)
            both.push_back(r ^ size_t(1) << (inputs - 1 - place));
        bool ones = std::all_of(both.begin(), both.end(), [&](size_t r) { return table[r] == '1'; });
        if (ones && !once_in(10)) {
            cube[place] = '-';
            rows = both;
        }
    }
    return cube;
}

// Cubes with the tables of a design: each is around the first row of some output that no cube before has, and where all its
// rows have value 1 in another output too it is in that output's on-set now and then.
Generator::PlaDraft Generator::pla_of(const oracle::Design &design)
{
    PlaDraft p;
    p.inputs = design.inputs;
    p.bound = design.bound;
    p.limit = std::to_string(design.limit);
    const size_t rows = size_t(1) << p.inputs.size();
    for (const oracle::Output &o : design.outputs)
        p.outputs.push_back(o.name);
    auto covers = [](const string &cube, size_t row) {
        for (size_t i = cube.size(); i-- > 0; row >>= 1)
            if (cube[i] != '-' && cube[i] != "01"[row & 1])
                return false;
        return true;
    };
    for (size_t o = 0; o < p.outputs.size(); o++) {
        string left = design.outputs[o].table;
        for (const auto &cube : p.cubes)
            if (cube.second[o] == '1')
                for (size_t r = 0; r < rows; r++)
                    if (covers(cube.first, r))
                        left[r] = '0';
        for (size_t row = left.find('1'); row != string::npos; row = left.find('1', row)) {
            string cube = cube_around(row, p.inputs.size(), design.outputs[o].table), marks(p.outputs.size(), '0');
            marks[o] = '1';
            std::vector<bool> fits(p.outputs.size(), true);
            for (size_t r = 0; r < rows; r++)
                if (covers(cube, r)) {
                    left[r] = '0';
                    for (size_t other = 0; other < fits.size(); other++)
                        fits[other] = fits[other] && design.outputs[other].table[r] == '1';
                }
            for (size_t other = 0; other < fits.size(); other++)
                if (fits[other] && once_in(2))
                    marks[other] = '1';
            p.cubes.emplace_back(cube, marks);
        }
    }
    if (once_in(5))
        p.cubes.emplace_back(string(p.inputs.size(), '-'), string(p.outputs.size(), '0'));
    for (size_t i = p.cubes.size(); i > 1; i--)
        std::swap(p.cubes[i - 1], p.cubes[below(i)]);
    return p;
}

// A sheet whose formulas are the cubes, each output a sum of products.
string Generator::sheet_of_products(const PlaDraft &p)
{
    auto under = [](const string &word, const string &none, const Names &parts) {
        string all = "(" + word;
        for (const string &part : parts)
            all += " " + part;
        return parts.empty() ? none : parts.size() == 1 ? parts[0] : all + ")";
    };
    Draft d;
    d.inputs = p.inputs;
    d.bound = p.bound;
    d.limit = p.limit;
    for (size_t o = 0; o < p.outputs.size(); o++) {
        Names products;
        for (const auto &cube : p.cubes) {
            Names literals;
            for (size_t i = 0; i < p.inputs.size(); i++)
                if (cube.first[i] != '-')
                    literals.push_back(cube.first[i] == '1' ? p.inputs[i] : "(not " + p.inputs[i] + ")");
            if (cube.second[o] == '1')
                products.push_back(under("and", "1", literals));
        }
        d.outputs.emplace_back(p.outputs[o], under("or", "0", products));
    }
    return d.text();
}

void Generator::panel(string &sheet, Source &pla)
{
    oracle::Design design;
    do
        sheet = sheet_in_any_case(once_in(2) ? draft().text() : sheet_of_products(pla_draft()));
    while (oracle::examine(sheet, design).number != 0);
    pla = pla_of(design).source();
    pla.board = sheet_in_any_case(pla.board);
}

void Generator::border_panel(string &sheet, Source &pla)
{
    oracle::Design design;
    sheet = sheet_in_any_case(border_draft().text());
    oracle::examine(sheet, design);
    pla = pla_of(design).source();
}

string Generator::bytes()
{
    static const char BYTES[] = {'\n', '\n', '\n', 'a', '(', ' ', 0, 0x0B, 0x0D, char(0x8A), char(0xFF)};
    string all(once_in(40) ? 4000 + below(4000) : below(30), ' ');
    for (char &c : all)
        c = BYTES[below(sizeof BYTES)];
    return all;
}

// ---- capitals

// A name is in capitals, has a capital first, has them as they come, or stays as it is; and half of the texts stay as they are.
string Generator::in_any_case(string text, const std::vector<Word> &names)
{
    if (once_in(2))
        return text;
    for (const Word &name : names)
        for (size_t way = below(4), at = name.start; at < name.end; at++)
            if (way == 0 || (way == 1 && at == name.start) || (way == 2 && once_in(2)))
                text[at] = char(toupper(static_cast<unsigned char>(text[at])));
    return text;
}

// ---- damage

string Generator::damaged(string text, const string &bytes)
{
    for (size_t times = 1 + below(3); times > 0 && !text.empty(); times--) {
        size_t at = below(text.size()), line = text.rfind('\n', at), next = text.find('\n', at);
        line = line == string::npos ? 0 : line + 1;
        next = next == string::npos ? text.size() : next + 1;
        string whole = next > line ? text.substr(line, next - line) : "";
        switch (below(10)) {
        case 0: text[at] = bytes[below(bytes.size())]; break;
        case 1: text[at] = char(text[at] ^ 1 << below(8)); break;
        case 2: text.erase(at, 1); break;
        case 3: text.insert(at, 1, bytes[below(bytes.size())]); break;
        case 4: text.insert(line, whole); break;
        case 5: text.erase(line, whole.size()); break;
        case 6: text.resize(at); break;
        case 7: text += whole; break;
        case 8:
            // a letter in the other case
            at = text.find_first_of(LETTERS, at);
            text = at == string::npos ? text : turned(text, {Word{at, at + 1}});
            break;
        default: std::swap(text[at], text[below(text.size())]); break;
        }
    }
    return text;
}

// ---- network sheets

string print_node(const oracle::Design &design, size_t output, const oracle::Node &node)
{
    Names reads;
    for (unsigned i : node.reads)
        reads.push_back("_" + std::to_string(i));
    for (const string &n : oracle::free_inputs(design))
        reads.push_back(n);
    string list = listed("", reads);
    list = "(" + (reads.empty() ? ")" : list.substr(2, list.size() - 3));
    return "(node " + design.outputs[output].name + " " + list + " " + node.digits + ")\n";
}

string print_network(const oracle::Design &design, const oracle::Network &network, size_t count)
{
    string bound = listed("", design.bound);
    bound = "(" + bound.substr(2, bound.size() - 3);
    string text = "(network 1)\n";
    for (size_t i = 0; i < network.luts.size(); i++)
        text += "(lut _" + std::to_string(i) + " " + bound + " " + network.luts[i].digits + ")\n";
    for (size_t o = 0; o < network.nodes.size(); o++)
        text += print_node(design, o, network.nodes[o]);
    return text + "(count " + std::to_string(count) + ")\n(end)\n";
}

string Generator::random_digits(size_t n)
{
    string digits;
    while (digits.size() < n)
        digits += "01"[below(2)];
    return digits;
}

// Gives each node the digits that the design asks for wherever its tables tell the classes apart, and others at random.
void Generator::fill_nodes(const oracle::Design &design, oracle::Network &network)
{
    size_t rows = size_t(1) << oracle::free_inputs(design).size();
    for (size_t o = 0; o < network.nodes.size(); o++) {
        oracle::Node &node = network.nodes[o];
        node.digits = random_digits(rows << node.reads.size());
        std::vector<string> columns = oracle::columns(design, o);
        for (size_t vertex = 0; vertex < columns.size(); vertex++)
            node.digits.replace(oracle::code(network, node, vertex) * rows, rows, columns[vertex]);
    }
}

// Tables at random, mostly within limit and widths, sometimes one above.
oracle::Network Generator::random_network(const oracle::Design &design)
{
    oracle::Network network;
    size_t luts = below(design.limit + 1) + (once_in(8) ? 1 : 0);
    for (size_t i = 0; i < luts; i++)
        network.luts.push_back(oracle::Lut{random_digits(size_t(1) << design.bound.size())});
    for (size_t o = 0; o < design.outputs.size(); o++) {
        oracle::Node node;
        size_t most = std::min<size_t>(luts, oracle::width(design, o) + (once_in(8) ? 1 : 0));
        for (unsigned i = 0; i < luts; i++)
            if (node.reads.size() < most && once_in(2))
                node.reads.push_back(i);
        network.nodes.push_back(node);
    }
    fill_nodes(design, network);
    return network;
}

// The same tables in another order, some complemented: still the same outputs.
oracle::Network Generator::rearranged(const oracle::Design &design, const oracle::Network &network)
{
    oracle::Network other = network;
    std::vector<unsigned> place;
    for (unsigned i = 0; i < network.luts.size(); i++)
        place.push_back(i);
    for (size_t i = place.size(); i > 1; i--)
        std::swap(place[i - 1], place[below(i)]);
    for (size_t i = 0; i < place.size(); i++) {
        string digits = network.luts[i].digits;
        if (once_in(2))
            for (char &c : digits)
                c = c == '0' ? '1' : '0';
        other.luts[place[i]].digits = digits;
    }
    for (oracle::Node &node : other.nodes) {
        for (unsigned &i : node.reads)
            i = place[i];
        std::sort(node.reads.begin(), node.reads.end());
    }
    fill_nodes(design, other);
    return other;
}

string Generator::network_sheet(const oracle::Design &design, const string &mapped)
{
    if (once_in(300))
        return string(8000 + below(400), once_in(2) ? '\n' : '0');
    oracle::Network network;
    bool have = !mapped.empty() && !once_in(3) && oracle::read_network(design, mapped, network).number == 0;
    network = have ? rearranged(design, network) : random_network(design);
    for (size_t times = once_in(3) ? 1 + below(2) : 0; times > 0; times--) {
        string &digits = network.nodes[below(network.nodes.size())].digits;
        char &c = digits[below(digits.size())];
        c = c == '0' ? '1' : '0';
    }
    string text = print_network(design, network, network.luts.size() + (once_in(30) ? 1 : 0));
    text = in_any_case(text, names_of_network(text));
    return once_in(4) ? damaged(text, SHEET_BYTES) : text;
}
