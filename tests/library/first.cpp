#include "first.h"

#include "generate.h"

#include <algorithm>
#include <array>
#include <cstdint>

namespace {

// Bit i is table i's value.
typedef unsigned Code;
// A set of codes of at most 6 bits.
typedef uint64_t Codes;

const unsigned CODES = 64, NO_LABEL = ~0u;

struct TooLong {};

// The global class of each vertex, and for each output the label of each global class, both numbered as they come up.
struct Problem {
    std::vector<size_t> class_of;
    size_t classes = 0;
    std::vector<std::vector<unsigned>> labels;
    std::vector<unsigned> counts, widths;
};

// Digits of tables at the global classes. An empty list: nothing is known of the table.
typedef std::vector<std::vector<bool>> Digits;

template <class T> std::vector<unsigned> numbered(const std::vector<T> &keys)
{
    std::vector<T> seen;
    std::vector<unsigned> numbers;
    for (const T &key : keys) {
        size_t number = size_t(std::find(seen.begin(), seen.end(), key) - seen.begin());
        if (number == seen.size())
            seen.push_back(key);
        numbers.push_back(unsigned(number));
    }
    return numbers;
}

Problem problem_of(const oracle::Design &design)
{
    Problem p;
    std::vector<std::string> joined(size_t(1) << design.bound.size());
    for (size_t o = 0; o < design.outputs.size(); o++) {
        std::vector<std::string> columns = oracle::columns(design, o);
        for (size_t vertex = 0; vertex < joined.size(); vertex++)
            joined[vertex] += columns[vertex] + " ";
    }
    for (unsigned number : numbered(joined))
        p.class_of.push_back(number);
    p.classes = *std::max_element(p.class_of.begin(), p.class_of.end()) + 1;
    for (size_t o = 0; o < design.outputs.size(); o++) {
        std::vector<unsigned> at_vertices = numbered(oracle::columns(design, o)), labels(p.classes);
        for (size_t vertex = 0; vertex < at_vertices.size(); vertex++)
            labels[p.class_of[vertex]] = at_vertices[vertex];
        p.labels.push_back(labels);
        p.counts.push_back(*std::max_element(labels.begin(), labels.end()) + 1);
        p.widths.push_back(oracle::width(design, o));
    }
    return p;
}

// A reading set, and the label that each of its codes stands for so far.
struct Set {
    Code mask;
    std::array<unsigned, CODES> owner;
    uint64_t labels = 0; // those that have a code
    unsigned used = 0;   // the codes in use

    explicit Set(Code mask) : mask(mask) { owner.fill(NO_LABEL); }

    bool takes(Code code, unsigned label) const { return owner[code & mask] == NO_LABEL || owner[code & mask] == label; }

    void give(Code code, unsigned label)
    {
        used += owner[code & mask] == NO_LABEL;
        owner[code & mask] = label;
        labels |= uint64_t(1) << label;
    }

    // Whether there are as many codes left as labels without one.
    bool has_room(unsigned count) const
    {
        return count - unsigned(__builtin_popcountll(labels)) <= (1u << __builtin_popcount(mask)) - used;
    }
};

// What is left at a place of the search: the reading sets of each output, and the codes of each class without one.
struct State {
    std::vector<std::vector<Set>> sets;
    std::vector<Codes> left;
    std::vector<Code> codes;
    std::vector<bool> done;
};

class Search {
public:
    Search(const Problem &problem, size_t tables, unsigned long &nodes) : p(problem), tables(tables), nodes(nodes) {}

    // Tables that serve and begin with the known digits, 0 at class 0.
    std::optional<Digits> find(const Digits &known)
    {
        unknown.clear();
        for (size_t i = 0; i < tables; i++)
            if (known[i].empty())
                unknown.push_back(i);
        State state = start(known);
        if (!give(state, 0, 0) || !search(state))
            return std::nullopt;
        Digits found(tables, std::vector<bool>(p.classes));
        for (size_t i = 0; i < tables; i++)
            for (size_t g = 0; g < p.classes; g++)
                found[i][g] = state.codes[g] >> i & 1;
        return found;
    }

private:
    State start(const Digits &known)
    {
        State state;
        for (unsigned width : p.widths) {
            state.sets.emplace_back();
            for (Code mask = 0; mask < 1u << tables; mask++)
                if (unsigned(__builtin_popcount(mask)) == std::min(width, unsigned(tables)))
                    state.sets.back().emplace_back(mask);
        }
        for (size_t g = 0; g < p.classes; g++) {
            state.left.push_back(0);
            for (Code code = 0; code < 1u << tables; code++) {
                bool fits = true;
                for (size_t i = 0; i < tables; i++)
                    fits = fits && (known[i].size() <= g || known[i][g] == (code >> i & 1));
                state.left.back() |= Codes(fits) << code;
            }
        }
        state.codes.resize(p.classes);
        state.done.resize(p.classes);
        return state;
    }

    // Gives a code to a class, and takes away what clashes with it; false where an output or a class has nothing left.
    bool give(State &state, size_t g, Code code)
    {
        if (nodes == 0)
            throw TooLong();
        nodes--;
        state.codes[g] = code;
        state.done[g] = true;
        for (size_t o = 0; o < state.sets.size(); o++) {
            unsigned label = p.labels[o][g], count = p.counts[o];
            std::vector<Set> &sets = state.sets[o];
            auto clashes = [&](const Set &set) { return !set.takes(code, label); };
            sets.erase(std::remove_if(sets.begin(), sets.end(), clashes), sets.end());
            for (Set &set : sets)
                set.give(code, label);
            sets.erase(std::remove_if(sets.begin(), sets.end(), [&](const Set &set) { return !set.has_room(count); }), sets.end());
            if (sets.empty())
                return false;
        }
        for (size_t h = 0; h < p.classes; h++)
            if (!state.done[h] && (state.left[h] = still_left(state, h)) == 0)
                return false;
        return true;
    }

    Codes still_left(const State &state, size_t h)
    {
        Codes codes = 0;
        for (Code code = 0; code < 1u << tables; code++)
            if (state.left[h] >> code & 1 && taken_by_all(state, h, code))
                codes |= Codes(1) << code;
        return codes;
    }

    bool taken_by_all(const State &state, size_t h, Code code)
    {
        for (size_t o = 0; o < state.sets.size(); o++) {
            auto takes = [&](const Set &set) { return set.takes(code, p.labels[o][h]); };
            if (std::none_of(state.sets[o].begin(), state.sets[o].end(), takes))
                return false;
        }
        return true;
    }

    // Two tables of which nothing is known and whose digits are equal so far can be exchanged, so the first takes the 1.
    bool in_order(const State &state, Code code)
    {
        for (size_t a = 0; a < unknown.size(); a++)
            for (size_t b = a + 1; b < unknown.size(); b++)
                if (!(code >> unknown[a] & 1) && code >> unknown[b] & 1 && alike(state, unknown[a], unknown[b]))
                    return false;
        return true;
    }

    bool alike(const State &state, size_t i, size_t j)
    {
        for (size_t g = 0; g < p.classes; g++)
            if (state.done[g] && (state.codes[g] >> i & 1) != (state.codes[g] >> j & 1))
                return false;
        return true;
    }

    // The class with the fewest codes left comes next.
    bool search(State &state)
    {
        size_t next = p.classes;
        for (size_t g = 0; g < p.classes; g++)
            if (!state.done[g] && (next == p.classes || __builtin_popcountll(state.left[g]) < __builtin_popcountll(state.left[next])))
                next = g;
        if (next == p.classes)
            return true;
        for (Code code = 0; code < 1u << tables; code++) {
            if (!(state.left[next] >> code & 1) || !in_order(state, code))
                continue;
            State after = state;
            if (give(after, next, code) && search(after)) {
                state = after;
                return true;
            }
        }
        return false;
    }

    const Problem &p;
    size_t tables;
    unsigned long &nodes;
    std::vector<size_t> unknown;
};

// The least list of tables that serves, from one that serves: where it has a 1, a list with 0 there is asked for.
Digits least(const Problem &p, Digits tables, unsigned long &nodes)
{
    std::sort(tables.begin(), tables.end());
    Search search(p, tables.size(), nodes);
    for (size_t i = 0; i < tables.size(); i++)
        for (size_t g = 1; g < p.classes; g++) {
            if (!tables[i][g])
                continue;
            Digits known(tables.begin(), tables.begin() + long(i) + 1);
            known[i].resize(g);
            known[i].push_back(false);
            known.resize(tables.size());
            if (std::optional<Digits> found = search.find(known)) {
                tables = *found;
                std::sort(tables.begin() + long(i) + 1, tables.end());
            }
        }
    return tables;
}

// The first line of an output's node over the tables, of all within its width that compute it.
void put_first_node(const oracle::Design &design, size_t output, oracle::Network &network)
{
    std::vector<std::string> columns = oracle::columns(design, output);
    std::string first;
    oracle::Node best;
    for (unsigned chosen = 0; chosen < 1u << network.luts.size(); chosen++) {
        oracle::Node node;
        for (unsigned i = 0; i < network.luts.size(); i++)
            if (chosen >> i & 1)
                node.reads.push_back(i);
        std::vector<std::string> entries(size_t(1) << node.reads.size());
        bool good = node.reads.size() <= oracle::width(design, output);
        for (size_t vertex = 0; good && vertex < columns.size(); vertex++) {
            std::string &entry = entries[oracle::code(network, node, vertex)];
            good = entry.empty() || entry == columns[vertex];
            entry = columns[vertex];
        }
        if (!good)
            continue;
        for (const std::string &entry : entries)
            node.digits += entry.empty() ? std::string(columns[0].size(), '0') : entry;
        std::string line = print_node(design, output, node);
        if (first.empty() || line < first) {
            first = line;
            best = node;
        }
    }
    network.nodes.push_back(best);
}

std::string text_of(const oracle::Design &design, const Problem &p, const Digits &tables)
{
    oracle::Network network;
    for (const std::vector<bool> &table : tables) {
        network.luts.emplace_back();
        for (size_t g : p.class_of)
            network.luts.back().digits += table[g] ? '1' : '0';
    }
    for (size_t o = 0; o < design.outputs.size(); o++)
        put_first_node(design, o, network);
    return print_network(design, network, network.luts.size());
}

}

First first_network(const oracle::Design &design, unsigned long nodes)
{
    Problem p = problem_of(design);
    try {
        for (size_t u = 0; u <= design.limit; u++)
            if (std::optional<Digits> found = Search(p, u, nodes).find(Digits(u)))
                return First{true, text_of(design, p, least(p, *found, nodes))};
    } catch (TooLong) {
        return First{};
    }
    return First{true, ""};
}

std::optional<bool> within_limit(const oracle::Design &design, unsigned long &nodes)
{
    Problem p = problem_of(design);
    try {
        return Search(p, design.limit, nodes).find(Digits(design.limit)).has_value();
    } catch (TooLong) {
        return std::nullopt;
    }
}
