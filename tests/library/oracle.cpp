#include "oracle.h"

#include <algorithm>
#include <cstdlib>
#include <set>
#include <sstream>

namespace oracle {

namespace {

typedef std::vector<std::string> Names;

const Names OPERATORS = {"not", "and", "or", "xor"};

// ---- names

char lower(char c)
{
    return c >= 'A' && c <= 'Z' ? char(c - 'A' + 'a') : c;
}

bool same_name(const std::string &a, const std::string &b)
{
    return std::equal(a.begin(), a.end(), b.begin(), b.end(), [](char c, char d) { return lower(c) == lower(d); });
}

// Where a name stands among some, or their end.
Names::const_iterator find_name(const std::string &name, const Names &names)
{
    return std::find_if(names.begin(), names.end(), [&](const std::string &n) { return same_name(n, name); });
}

bool among(const std::string &name, const Names &names)
{
    return find_name(name, names) != names.end();
}

bool all_among(const Names &some, const Names &names)
{
    return std::all_of(some.begin(), some.end(), [&](const std::string &n) { return among(n, names); });
}

bool repeats(const Names &names)
{
    for (auto n = names.begin(); n != names.end(); n++)
        if (find_name(*n, names) != n)
            return true;
    return false;
}

// ---- lines and trees

// The lines without their newlines; `ended` tells whether the last one had one.
Names split(const std::string &text, bool &ended)
{
    Names lines;
    std::string line;
    for (char c : text) {
        if (c == '\n') {
            lines.push_back(line);
            line.clear();
        } else {
            line += c;
        }
    }
    ended = line.empty();
    if (!ended)
        lines.push_back(line);
    return lines;
}

bool word_byte(char c)
{
    return c != ' ' && c != '(' && c != ')';
}

// Reads one item at `at`, passing over any number of spaces.
bool read_item(const std::string &line, size_t &at, Tree &tree)
{
    while (at < line.size() && line[at] == ' ')
        at++;
    if (at == line.size() || line[at] == ')')
        return false;
    if (line[at] != '(') {
        while (at < line.size() && word_byte(line[at]))
            tree.word += line[at++];
        return true;
    }
    tree.bracket = true;
    at++;
    for (;;) {
        while (at < line.size() && line[at] == ' ')
            at++;
        if (at < line.size() && line[at] == ')') {
            at++;
            return true;
        }
        tree.items.emplace_back();
        if (!read_item(line, at, tree.items.back()))
            return false;
    }
}

void print(const Tree &tree, std::string &to)
{
    if (!tree.bracket) {
        to += tree.word;
        return;
    }
    to += '(';
    for (size_t i = 0; i < tree.items.size(); i++) {
        if (i > 0)
            to += ' ';
        print(tree.items[i], to);
    }
    to += ')';
}

// A bracket whose print is the line itself, so that every space stands where it must.
bool read_line(const std::string &line, Tree &tree)
{
    size_t at = 0;
    std::string again;
    if (!read_item(line, at, tree) || !tree.bracket)
        return false;
    print(tree, again);
    return again == line;
}

// ---- the shapes of lines

bool is_operator(const std::string &word)
{
    return std::find(OPERATORS.begin(), OPERATORS.end(), word) != OPERATORS.end();
}

bool is_name(const Tree &tree)
{
    const std::string &w = tree.word;
    auto letter = [](char c) { return lower(c) >= 'a' && lower(c) <= 'z'; };
    if (tree.bracket || w.empty() || w.size() > 8 || among(w, OPERATORS) || !letter(w[0]))
        return false;
    return std::all_of(w.begin(), w.end(), [&](char c) { return letter(c) || (c >= '0' && c <= '9'); });
}

bool is_number(const Tree &tree)
{
    const std::string &w = tree.word;
    if (tree.bracket || w.empty() || w.size() > 3 || (w[0] == '0' && w.size() > 1))
        return false;
    return std::all_of(w.begin(), w.end(), [](char c) { return c >= '0' && c <= '9'; });
}

bool is_formula(const Tree &tree)
{
    if (!tree.bracket)
        return tree.word == "0" || tree.word == "1" || is_name(tree);
    if (tree.items.empty() || tree.items[0].bracket || !is_operator(tree.items[0].word))
        return false;
    size_t operands = tree.items.size() - 1;
    if (tree.items[0].word == "not" ? operands != 1 : operands < 2)
        return false;
    return std::all_of(tree.items.begin() + 1, tree.items.end(), is_formula);
}

bool opens_with(const Tree &tree, const char *word)
{
    return !tree.items.empty() && !tree.items[0].bracket && tree.items[0].word == word;
}

bool is_list_of_names(const Tree &tree, const char *word)
{
    return opens_with(tree, word) && std::all_of(tree.items.begin() + 1, tree.items.end(), is_name);
}

unsigned depth(const Tree &tree)
{
    unsigned deepest = 0;
    for (const Tree &t : tree.items)
        deepest = std::max(deepest, depth(t));
    return tree.bracket ? deepest + 1 : 0;
}

void collect_names(const Tree &tree, Names &names)
{
    if (is_name(tree))
        names.push_back(tree.word);
    for (const Tree &t : tree.items)
        collect_names(t, names);
}

// Spells each name as the inputs do, all of which it is among.
void spell(Tree &tree, const Names &inputs)
{
    if (is_name(tree))
        tree.word = *find_name(tree.word, inputs);
    for (Tree &t : tree.items)
        spell(t, inputs);
}

Names words_after_first(const Tree &tree)
{
    Names words;
    for (size_t i = 1; i < tree.items.size(); i++)
        words.push_back(tree.items[i].word);
    return words;
}

// ---- questions 2 to 5 on one line; the answer is the number, or 0

unsigned ask_in(const Tree &tree, Design &design)
{
    if (!is_list_of_names(tree, "in"))
        return 2;
    design.inputs = words_after_first(tree);
    if (design.inputs.size() < 1 || design.inputs.size() > 10)
        return 3;
    return repeats(design.inputs) ? 4 : 0;
}

unsigned ask_bound(const Tree &tree, Design &design)
{
    if (!is_list_of_names(tree, "bound"))
        return 2;
    design.bound = words_after_first(tree);
    if (design.bound.size() < 1 || design.bound.size() > 5)
        return 3;
    if (repeats(design.bound))
        return 4;
    if (!all_among(design.bound, design.inputs))
        return 5;
    for (std::string &n : design.bound)
        n = *find_name(n, design.inputs);
    return 0;
}

unsigned ask_limit(const Tree &tree, Design &design)
{
    if (!opens_with(tree, "limit") || tree.items.size() != 2 || !is_number(tree.items[1]))
        return 2;
    design.limit = unsigned(std::stoul(tree.items[1].word));
    return design.limit > 6 ? 3 : 0;
}

unsigned ask_out(const Tree &tree, Design &design)
{
    if (!opens_with(tree, "out") || tree.items.size() != 3 || !is_name(tree.items[1]) || !is_formula(tree.items[2]))
        return 2;
    const std::string &name = tree.items[1].word;
    if (design.outputs.size() == 4 || depth(tree.items[2]) > 32)
        return 3;
    if (among(name, design.inputs))
        return 4;
    for (const Output &o : design.outputs)
        if (same_name(o.name, name))
            return 4;
    Names used;
    collect_names(tree.items[2], used);
    if (!all_among(used, design.inputs))
        return 5;
    design.outputs.push_back(Output{name, tree.items[2], ""});
    spell(design.outputs.back().formula, design.inputs);
    return 0;
}

// ---- values

// The digit that a name has in a row of the names, the first name highest.
bool digit(const std::string &name, const Names &names, size_t row)
{
    size_t place = size_t(std::find(names.begin(), names.end(), name) - names.begin());
    return row >> (names.size() - 1 - place) & 1;
}

bool value(const Tree &f, const Names &inputs, size_t row)
{
    if (!f.bracket)
        return f.word == "1" || (f.word != "0" && digit(f.word, inputs, row));
    const std::string &op = f.items[0].word;
    unsigned ones = 0;
    for (size_t i = 1; i < f.items.size(); i++)
        ones += value(f.items[i], inputs, row);
    if (op == "not")
        return ones == 0;
    if (op == "and")
        return ones == f.items.size() - 1;
    return op == "or" ? ones > 0 : ones % 2 == 1;
}

void tabulate(Design &design)
{
    for (Output &o : design.outputs)
        for (size_t row = 0; row < size_t(1) << design.inputs.size(); row++)
            o.table += value(o.formula, design.inputs, row) ? '1' : '0';
}

// Some of the inputs, by which a row over all of them is told apart.
class Some {
public:
    Some(const Names &some, const Names &inputs)
    {
        for (const std::string &n : some)
            places.push_back(size_t(inputs.end() - std::find(inputs.begin(), inputs.end(), n)) - 1);
    }

    // The row over these that a row over all has.
    size_t part_of(size_t row) const
    {
        size_t part = 0;
        for (size_t place : places)
            part = 2 * part + (row >> place & 1);
        return part;
    }

private:
    std::vector<size_t> places;
};

}

Names lines(const std::string &text)
{
    bool ended;
    return split(text, ended);
}

// ---- the design sheet

namespace {

bool passes_first(const std::string &text)
{
    if (text.size() < 1 || text.size() > 4096 || text.back() != '\n')
        return false;
    return std::all_of(text.begin(), text.end(), [](char c) { return c == '\n' || (c >= 0x20 && c <= 0x7E); });
}

}

Refusal examine(const std::string &text, Design &design)
{
    design = Design();
    if (!passes_first(text))
        return Refusal{1, 0};
    bool ended, over = false;
    Names lines = split(text, ended);
    for (size_t i = 0; i < lines.size(); i++) {
        Tree tree;
        unsigned number;
        if (over || !read_line(lines[i], tree))
            number = 2;
        else if (i == 0)
            number = lines[i] == "(design 1)" ? 0 : 2;
        else if (i == 1)
            number = ask_in(tree, design);
        else if (i == 2)
            number = ask_bound(tree, design);
        else if (i == 3)
            number = ask_limit(tree, design);
        else if (lines[i] == "(end)") {
            over = true;
            number = design.outputs.empty() ? 3 : 0;
        } else
            number = ask_out(tree, design);
        if (number)
            return Refusal{number, i + 1};
    }
    if (!over)
        return Refusal{2, lines.size() + 1};
    tabulate(design);
    return Refusal{};
}

// ---- a PLA text and a second text

namespace {

struct Cube {
    std::string literals, marks;
};

struct Pla {
    Names inputs, outputs;
    std::vector<Cube> cubes;
};

// A line `word N`: N is read as far as it goes, and then the print must be the line.
bool read_count(const std::string &line, const std::string &word, size_t &n)
{
    n = line.size() > word.size() ? strtoul(line.c_str() + word.size(), nullptr, 10) : 0;
    return n <= 99999 && line == word + " " + std::to_string(n);
}

// A line `word name ..` with so many names: they are read whatever stands between them, and then the print must be the line.
bool read_names(const std::string &line, const std::string &word, size_t count, Names &names)
{
    std::istringstream items(line);
    std::string first, again;
    items >> first;
    for (Tree name; items >> name.word; names.push_back(name.word))
        if (!is_name(name))
            return false;
    again = first;
    for (const std::string &n : names)
        again += " " + n;
    return first == word && again == line && names.size() == count;
}

// The first space parts the literals, which have none, from the marks, which may.
bool read_cube(const std::string &line, size_t inputs, size_t outputs, Cube &cube)
{
    size_t cut = line.find(' ');
    if (cut != inputs)
        return false;
    cube.literals = line.substr(0, cut);
    cube.marks = line.substr(cut + 1);
    return cube.literals.find_first_not_of("01-") == std::string::npos && cube.marks.size() == outputs;
}

// Question 12.
Refusal read_pla(const std::string &text, Pla &pla)
{
    if (text.size() < 1 || text.size() > 32768)
        return Refusal{12, 0};
    bool ended, over = false;
    size_t inputs = 0, outputs = 0, cubes = 0;
    Names lines = split(text, ended);
    for (size_t i = 0; i < lines.size(); i++) {
        bool good;
        Cube cube;
        if (over)
            good = false;
        else if (i == 0)
            good = read_count(lines[i], ".i", inputs) && inputs > 0;
        else if (i == 1)
            good = read_count(lines[i], ".o", outputs) && outputs > 0;
        else if (i == 2)
            good = read_names(lines[i], ".ilb", inputs, pla.inputs);
        else if (i == 3)
            good = read_names(lines[i], ".ob", outputs, pla.outputs);
        else if (i == 4)
            good = read_count(lines[i], ".p", cubes);
        else if (lines[i] == ".e") {
            over = true;
            good = pla.cubes.size() == cubes;
        } else {
            good = read_cube(lines[i], inputs, outputs, cube);
            pla.cubes.push_back(cube);
        }
        bool open = !ended && i + 1 == lines.size();
        if (open || !good)
            return Refusal{12, i + 1};
    }
    return over ? Refusal{} : Refusal{12, lines.size() + 1};
}

// Questions 13 and 14.
Refusal ask_pla(const Pla &pla)
{
    if (pla.inputs.size() > 10)
        return Refusal{13, 1};
    if (pla.outputs.size() > 4)
        return Refusal{13, 2};
    for (size_t i = 0; i < pla.cubes.size(); i++)
        if (pla.cubes[i].marks.find_first_not_of("01") != std::string::npos)
            return Refusal{14, i + 6};
    return Refusal{};
}

unsigned ask_line(const Names &lines, size_t i, unsigned (*ask)(const Tree &, Design &), Design &design)
{
    Tree tree;
    return i < lines.size() && read_line(lines[i], tree) ? ask(tree, design) : 2;
}

// The rows that a cube covers are those of its ones, with any of its dashes added.
void paint(const Cube &cube, Design &design)
{
    size_t ones = 0, dashes = 0;
    for (char c : cube.literals) {
        ones = 2 * ones + (c == '1');
        dashes = 2 * dashes + (c == '-');
    }
    for (size_t o = 0; o < design.outputs.size(); o++) {
        if (cube.marks[o] != '1')
            continue;
        for (size_t some = dashes;; some = (some - 1) & dashes) {
            design.outputs[o].table[ones | some] = '1';
            if (some == 0)
                break;
        }
    }
}

}

Refusal examine_pla(const std::string &text, const std::string &board, Design &design)
{
    design = Design();
    Pla pla;
    Refusal refusal = read_pla(text, pla);
    if (!refusal.number)
        refusal = ask_pla(pla);
    if (refusal.number)
        return refusal;
    if (!passes_first(board))
        return Refusal{1, 0};
    // Both lines are asked all their questions here; a misspelling is told before the names, all else after them.
    bool ended;
    Names lines = split(board, ended);
    design.inputs = pla.inputs;
    unsigned bound = ask_line(lines, 0, ask_bound, design), limit = ask_line(lines, 1, ask_limit, design);
    if (bound == 2 || limit == 2 || lines.size() > 2)
        return Refusal{2, size_t(bound == 2 ? 1 : limit == 2 ? 2 : 3)};
    Names all = pla.inputs;
    if (repeats(all))
        return Refusal{4, 3};
    all.insert(all.end(), pla.outputs.begin(), pla.outputs.end());
    if (repeats(all))
        return Refusal{4, 4};
    if (bound)
        return Refusal{bound, 1};
    if (limit)
        return Refusal{limit, 2};
    for (const std::string &name : pla.outputs)
        design.outputs.push_back(Output{name, Tree(), std::string(size_t(1) << pla.inputs.size(), '0')});
    for (const Cube &cube : pla.cubes)
        paint(cube, design);
    return Refusal{};
}

// ---- columns, classes, width

Names free_inputs(const Design &design)
{
    Names names;
    for (const std::string &n : design.inputs)
        if (!among(n, design.bound))
            names.push_back(n);
    return names;
}

std::vector<std::string> columns(const Design &design, size_t output)
{
    Names free = free_inputs(design);
    Some vertex(design.bound, design.inputs), rest(free, design.inputs);
    std::vector<std::string> list(size_t(1) << design.bound.size(), std::string(size_t(1) << free.size(), '?'));
    const std::string &table = design.outputs[output].table;
    for (size_t row = 0; row < table.size(); row++)
        list[vertex.part_of(row)][rest.part_of(row)] = table[row];
    return list;
}

unsigned width(const Design &design, size_t output)
{
    std::vector<std::string> list = columns(design, output);
    size_t classes = std::set<std::string>(list.begin(), list.end()).size();
    unsigned w = 0;
    while (size_t(1) << w < classes)
        w++;
    return w;
}

size_t global_classes(const Design &design)
{
    std::vector<std::string> joined(size_t(1) << design.bound.size());
    for (size_t o = 0; o < design.outputs.size(); o++) {
        std::vector<std::string> list = columns(design, o);
        for (size_t vertex = 0; vertex < list.size(); vertex++)
            joined[vertex] += list[vertex] + " ";
    }
    return std::set<std::string>(joined.begin(), joined.end()).size();
}

// ---- the network sheet

namespace {

bool are_digits(const Tree &tree, size_t inputs)
{
    return !tree.bracket && tree.word.size() == size_t(1) << inputs && tree.word.find_first_not_of("01") == std::string::npos;
}

std::string lut_name(size_t number)
{
    return "_" + std::to_string(number);
}

bool is_lut(const Design &design, const Tree &tree, size_t number)
{
    if (number > 5 || !opens_with(tree, "lut") || tree.items.size() != 4 || tree.items[1].bracket || tree.items[1].word != lut_name(number))
        return false;
    const Tree &list = tree.items[2];
    if (!list.bracket || list.items.size() != design.bound.size())
        return false;
    for (size_t i = 0; i < list.items.size(); i++)
        if (list.items[i].bracket || !same_name(list.items[i].word, design.bound[i]))
            return false;
    return are_digits(tree.items[3], design.bound.size());
}

// The list must be some of the shared tables, rising, and then the free inputs: the tables are those at its front.
bool is_node(const Design &design, const Tree &tree, size_t output, size_t luts, Node &node)
{
    if (!opens_with(tree, "node") || tree.items.size() != 4 || tree.items[1].bracket || !same_name(tree.items[1].word, design.outputs[output].name))
        return false;
    const Tree &list = tree.items[2];
    Names free = free_inputs(design);
    if (!list.bracket || list.items.size() < free.size())
        return false;
    size_t reads = list.items.size() - free.size(), next = 0;
    for (size_t i = 0; i < list.items.size(); i++) {
        if (list.items[i].bracket)
            return false;
        if (i >= reads) {
            if (!same_name(list.items[i].word, free[i - reads]))
                return false;
            continue;
        }
        while (next < luts && lut_name(next) != list.items[i].word)
            next++;
        if (next == luts)
            return false;
        node.reads.push_back(unsigned(next++));
    }
    node.digits = tree.items[3].word;
    return are_digits(tree.items[3], list.items.size());
}

// One line after the first; `nodes` have been read, and then count and end.
bool take_line(const Design &design, const std::string &line, size_t &closing, Network &network)
{
    Tree tree;
    if (!read_line(line, tree))
        return false;
    if (network.nodes.empty() && is_lut(design, tree, network.luts.size())) {
        network.luts.push_back(Lut{tree.items[3].word});
        return true;
    }
    if (network.nodes.size() < design.outputs.size()) {
        Node node;
        if (!is_node(design, tree, network.nodes.size(), network.luts.size(), node))
            return false;
        network.nodes.push_back(node);
        return true;
    }
    closing++;
    if (closing == 1)
        return line == "(count " + std::to_string(network.luts.size()) + ")";
    return closing == 2 && line == "(end)";
}

}

Refusal read_network(const Design &design, const std::string &text, Network &network)
{
    network = Network();
    if (text.size() < 1 || text.size() > 8192)
        return Refusal{10, 0};
    bool ended;
    size_t closing = 0;
    Names lines = split(text, ended);
    for (size_t i = 0; i < lines.size(); i++) {
        bool open = !ended && i + 1 == lines.size();
        if (open || !(i == 0 ? lines[i] == "(network 1)" : take_line(design, lines[i], closing, network)))
            return Refusal{10, i + 1};
    }
    return closing == 2 ? Refusal{} : Refusal{10, lines.size() + 1};
}

size_t code(const Network &network, const Node &node, size_t vertex)
{
    size_t row = 0;
    for (unsigned number : node.reads)
        row = 2 * row + (network.luts[number].digits[vertex] == '1');
    return row;
}

namespace {

Refusal within(const Design &design, const Network &network)
{
    if (network.luts.size() > design.limit)
        return Refusal{11, 2 + design.limit};
    for (size_t o = 0; o < network.nodes.size(); o++)
        if (network.nodes[o].reads.size() > width(design, o))
            return Refusal{11, 2 + network.luts.size() + o};
    return Refusal{};
}

}

Comparison check(const Design &design, const std::string &text, Network &network)
{
    Comparison answer;
    answer.refusal = read_network(design, text, network);
    if (!answer.refusal.number)
        answer.refusal = within(design, network);
    if (answer.refusal.number)
        return answer;
    Names free = free_inputs(design);
    Some vertex(design.bound, design.inputs), rest(free, design.inputs);
    for (size_t o = 0; o < design.outputs.size(); o++) {
        const std::string &wanted = design.outputs[o].table;
        for (size_t row = 0; row < wanted.size(); row++) {
            if (network.nodes[o].digits[code(network, network.nodes[o], vertex.part_of(row)) << free.size() | rest.part_of(row)] == wanted[row])
                continue;
            answer.differs = true;
            answer.output = o;
            answer.row = row;
            return answer;
        }
    }
    return answer;
}

// ---- BLIF

namespace {

// The rows of value 1 in rising order: all rows are counted through by their digits, as one adds 1 in binary.
void print_block(const Names &inputs, const std::string &name, const std::string &digits, std::string &to)
{
    to += ".names";
    for (const std::string &n : inputs)
        to += " " + n;
    to += " " + name + "\n";
    std::string row(inputs.size(), '0');
    for (char digit : digits) {
        if (digit == '1')
            to += row + (row.empty() ? "1\n" : " 1\n");
        size_t ones = row.size();
        while (ones > 0 && row[ones - 1] == '1')
            row[--ones] = '0';
        if (ones > 0)
            row[ones - 1] = '1';
    }
}

std::string cell_name(size_t number)
{
    return "CC_" + std::to_string(number);
}

}

std::string blif(const Design &design, const Network &network)
{
    std::string text = ".model panel\n.inputs";
    for (const std::string &n : design.inputs)
        text += " " + n;
    text += "\n.outputs";
    for (const Output &o : design.outputs)
        text += " " + o.name;
    text += "\n";
    for (size_t i = 0; i < network.luts.size(); i++)
        print_block(design.bound, cell_name(i), network.luts[i].digits, text);
    for (size_t o = 0; o < network.nodes.size(); o++) {
        Names inputs;
        for (unsigned i : network.nodes[o].reads)
            inputs.push_back(cell_name(i));
        for (const std::string &n : free_inputs(design))
            inputs.push_back(n);
        print_block(inputs, design.outputs[o].name, network.nodes[o].digits, text);
    }
    return text + ".end\n";
}

}
