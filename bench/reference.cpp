// reference [CAP=N] < PROBLEMS: the fewest cells that serve, from class labels; g++ -O2 -std=c++17. A plain program of which
// nothing is proved: bench/run times Map beside it, and tests/search.py compares the proved search with it.
//
// A problem is numbers: vertices (up to 32), outputs (up to 8), limit (up to 6), then for each output its class at each vertex.
// A cell has a digit for each vertex. An output of K classes reads at most W cells, the least W with K <= 2^W, and vertices of
// different classes differ in a cell that it reads. A problem is answered by a line: the fewest cells, `inf` where the limit is
// too low, or `cap` after N nodes; the nodes, which are codes given to a vertex; milliseconds of processor time. Last comes a
// line `total M ms` on standard error.
//
// For each number of cells, from the least that counting allows, Readings chooses the cells that each output reads, and Coding
// then looks for the digits of the cells with several readers. A cell with one reader gets no digits: all it does is to double
// how many classes its output may have at one code of the others.
#include <algorithm>
#include <cstdint>
#include <cstdio>
#include <cstdlib>
#include <cstring>
#include <ctime>
#include <unordered_map>
#include <vector>

enum { VERTICES = 32, OUTPUTS = 8, CELLS = 6, CODES = 1 << CELLS };

using Set = uint32_t;   // of outputs, of cells or of vertices: a bit for each
using Codes = uint64_t; // a set of codes: a bit for each

static int size(uint64_t s) { return __builtin_popcountll(s); }
static int lowest(uint64_t s) { return __builtin_ctzll(s); }

struct Capped {};
static uint64_t nodes, most_nodes = ~uint64_t(0);

struct Problem {
    int vertices, outputs, limit;
    int label[OUTPUTS][VERTICES], classes[OUTPUTS], width[OUTPUTS];
    int joint[1 << OUTPUTS];                     // how many classes a set of outputs has together
    int inside[1 << OUTPUTS][OUTPUTS][VERTICES]; // how many of these lie in one class of an output
    std::vector<Set> by_size;                    // the sets of two outputs, then those of three, and so on

    bool read()
    {
        if (scanf("%d %d %d", &vertices, &outputs, &limit) != 3)
            return false;
        bool fits = vertices >= 1 && vertices <= VERTICES && outputs >= 1 && outputs <= OUTPUTS && limit >= 0 && limit <= CELLS;
        for (int o = 0; fits && o < outputs; o++)
            for (int v = 0; fits && v < vertices; v++)
                fits = scanf("%d", &label[o][v]) == 1;
        if (!fits) {
            fprintf(stderr, "reference: numbers out of range, or labels that are missing\n");
            exit(2);
        }
        return true;
    }

    void prepare()
    {
        for (int o = 0; o < outputs; o++)
            classes[o] = renumber(label[o]);
        most_classes_first();
        for (int o = 0; o < outputs; o++)
            for (width[o] = 0; 1 << width[o] < classes[o];)
                width[o]++;
        by_size.clear();
        for (Set a = 1; a < Set(1) << outputs; a++) {
            count(a);
            if (size(a) > 1)
                by_size.push_back(a);
        }
        std::stable_sort(by_size.begin(), by_size.end(), [](Set a, Set b) { return size(a) < size(b); });
    }

    int least_cells() const
    {
        int u = 0;
        while (1 << u < joint[(1 << outputs) - 1])
            u++;
        return u;
    }

private:
    int id[1 << OUTPUTS][VERTICES]; // the number of a vertex's joint class

    // Gives values the numbers from 0 in the order in which they occur, and says how many there are.
    int renumber(int* values) const
    {
        int seen[VERTICES], n = 0;
        for (int v = 0; v < vertices; v++) {
            int i = 0;
            while (i < n && seen[i] != values[v])
                i++;
            if (i == n)
                seen[n++] = values[v];
            values[v] = i;
        }
        return n;
    }

    // An output of many classes leaves the least choice.
    void most_classes_first()
    {
        for (int o = 1; o < outputs; o++)
            for (int p = o; p > 0 && classes[p - 1] < classes[p]; p--) {
                std::swap(classes[p - 1], classes[p]);
                std::swap(label[p - 1], label[p]);
            }
    }

    void count(Set a)
    {
        Set rest = a & (a - 1);
        for (int v = 0; v < vertices; v++)
            id[a][v] = (rest ? id[rest][v] * VERTICES : 0) + label[lowest(a)][v];
        joint[a] = renumber(id[a]);
        for (int o = 0; o < outputs; o++) {
            Set met[VERTICES] = {};
            for (int v = 0; v < vertices; v++)
                met[label[o][v]] |= Set(1) << id[a][v];
            for (int l = 0; l < classes[o]; l++)
                inside[a][o][l] = size(met[l]);
        }
    }
};

static Problem problem;
static Set reads[OUTPUTS]; // the cells that an output reads

static Set read_by_any(Set outputs)
{
    Set cells = 0;
    for (; outputs; outputs &= outputs - 1)
        cells |= reads[lowest(outputs)];
    return cells;
}

// How many of an output's entries, which are values of the cells that it reads, its class l needs at least among these outputs:
// within one entry, others tell classes apart only by the cells that they read and it does not.
static int least_entries(int output, int l, Set among)
{
    int least = 1;
    for (Set q = among; q; q = (q - 1) & among) {
        if (q >> output & 1)
            continue;
        int more = size(read_by_any(q) & ~reads[output]);
        least = std::max(least, (problem.inside[q][output][l] + (1 << more) - 1) >> more);
    }
    return least;
}

// For some outputs and what each reads: whether the shared cells, those with two readers or more, can have digits that serve.
class Coding {
public:
    explicit Coding(Set among)
    {
        order_shared(among);
        list_codes();
        choose_vertices(among);
        for (Set r = among; r; r &= r - 1)
            add(lowest(r), among);
    }

    bool serves()
    {
        if (shared == 0)
            return true;
        for (int i = 0; i < outputs; i++)
            if (start.output[i].owed > start.output[i].left)
                return false;
        return code(Set((uint64_t(1) << vertices) - 1), start);
    }

private:
    // What does not change during the search.
    struct Fixed {
        Set unseen;              // shared cells that the output does not read
        int room;                // classes that may stand at one value of the shared cells that it reads
        int label[VERTICES], classes;
        uint8_t least[VERTICES]; // entries that a class needs
    };
    // An output's entries so far. All sets of codes are unions of views: with a code, those that the output cannot tell from it.
    struct Entries {
        Codes at[VERTICES];      // for each class, where it has an entry
        Codes open;              // where another class has room
        uint8_t used[CODES];     // for the lowest code of a view, how many classes have an entry there
        uint8_t has[VERTICES];   // for each class its number of entries
        int left, owed;          // entries not yet used; of these, those that classes still need by `least`
    };
    struct State {
        Entries output[OUTPUTS];
        int values[CELLS];       // for each group of cells how many of its values are in use
    };

    int shared = 0, outputs = 0, vertices = 0, groups = 0;
    int cell[CELLS], vertex[VERTICES], group_at[CELLS], group_cells[CELLS];
    Codes all = 0, up_to[CELLS][CODES + 1]; // up_to: the codes whose value in a group is so high at most
    Fixed fixed[OUTPUTS];
    State start;

    // Cells with the same readers are a group and stand together: any renumbering of a group's values serves as well.
    void order_shared(Set among)
    {
        Set readers[CELLS];
        for (int c = 0; c < CELLS; c++) {
            Set by = 0;
            for (Set r = among; r; r &= r - 1)
                by |= (reads[lowest(r)] >> c & 1) << lowest(r);
            if (size(by) < 2)
                continue;
            int i = shared++;
            for (; i > 0 && readers[i - 1] > by; i--) {
                readers[i] = readers[i - 1];
                cell[i] = cell[i - 1];
            }
            readers[i] = by;
            cell[i] = c;
        }
        for (int i = 0; i < shared; i++) {
            if (i == 0 || readers[i] != readers[i - 1]) {
                group_at[groups] = i;
                group_cells[groups++] = 0;
            }
            group_cells[groups - 1]++;
        }
    }

    void list_codes()
    {
        all = shared == CELLS ? ~Codes(0) : (Codes(1) << (1 << shared)) - 1;
        for (int g = 0; g < groups; g++) {
            start.values[g] = 0;
            for (int high = 0; high <= 1 << group_cells[g]; high++) {
                up_to[g][high] = 0;
                for (int c = 0; c < 1 << shared; c++)
                    if (value(c, g) <= high)
                        up_to[g][high] |= Codes(1) << c;
            }
        }
    }

    int value(int code, int group) const { return code >> group_at[group] & ((1 << group_cells[group]) - 1); }

    // One vertex of each joint class.
    void choose_vertices(Set among)
    {
        for (int v = 0; v < problem.vertices; v++) {
            bool fresh = true;
            for (int i = 0; i < vertices && fresh; i++) {
                fresh = false;
                for (Set r = among; r; r &= r - 1)
                    fresh = fresh || problem.label[lowest(r)][v] != problem.label[lowest(r)][vertex[i]];
            }
            if (fresh)
                vertex[vertices++] = v;
        }
    }

    void add(int o, Set among)
    {
        Fixed& f = fixed[outputs];
        Entries& e = start.output[outputs++];
        f.unseen = 0;
        for (int i = 0; i < shared; i++)
            f.unseen |= (~reads[o] >> cell[i] & 1) << i;
        f.room = 1 << (size(reads[o]) - (shared - size(f.unseen)));
        f.classes = problem.classes[o];
        for (int i = 0; i < vertices; i++)
            f.label[i] = problem.label[o][vertex[i]];
        memset(&e, 0, sizeof e);
        e.open = all;
        e.left = 1 << size(reads[o]);
        for (int l = 0; l < f.classes; l++)
            e.owed += f.least[l] = least_entries(o, l, among);
    }

    // With each code those that differ from it in unseen cells alone.
    static Codes views(Codes set, Set unseen)
    {
        static const Codes zero[CELLS] = {0x5555555555555555, 0x3333333333333333, 0x0f0f0f0f0f0f0f0f,
                                          0x00ff00ff00ff00ff, 0x0000ffff0000ffff, 0x00000000ffffffff};
        for (; unseen; unseen &= unseen - 1) {
            int i = lowest(unseen), step = 1 << i;
            Codes without = (set | set >> step) & zero[i];
            set = without | without << step;
        }
        return set;
    }

    // Whether digits for the vertices in `left` complete the state.
    bool code(Set left, const State& state)
    {
        if (left == 0)
            return true;
        Codes domain[VERTICES];
        if (!domains(left, state, domain) || !narrowed(left, state, domain))
            return false;
        Codes fresh = all;
        for (int g = 0; g < groups; g++)
            fresh &= up_to[g][state.values[g]];
        int v = tightest(left, state, domain, fresh);
        State next;
        for (Codes d = domain[v] & fresh; d; d &= d - 1) {
            if (++nodes > most_nodes)
                throw Capped();
            give(v, lowest(d), state, next);
            if (code(left & ~(Set(1) << v), next))
                return true;
        }
        return false;
    }

    // The codes that each vertex may have: where its class has an entry in each output, or may get one.
    bool domains(Set left, const State& state, Codes* domain) const
    {
        for (Set r = left; r; r &= r - 1) {
            int v = lowest(r);
            Codes d = all;
            for (int o = 0; o < outputs; o++) {
                const Entries& e = state.output[o];
                int l = fixed[o].label[v];
                bool may = e.has[l] < fixed[o].least[l] || e.left > e.owed;
                d &= may ? e.at[l] | e.open : e.at[l];
            }
            if (d == 0)
                return false;
            domain[v] = d;
        }
        return true;
    }

    // Whether the entries left over suffice for the vertices that need a new one; where they only just do, takes the codes
    // that would use up one more out of the domains, until nothing changes.
    bool narrowed(Set left, const State& state, Codes* domain) const
    {
        for (bool again = true; again;) {
            again = false;
            for (int o = 0; o < outputs; o++)
                if (!narrow(fixed[o], state.output[o], left, domain, again))
                    return false;
        }
        return true;
    }

    static bool narrow(const Fixed& f, const Entries& e, Set left, Codes* domain, bool& again)
    {
        Codes common[VERTICES]; // of a class with vertices that need a new entry, where one entry would do for all of these
        Set needy = 0;
        int need = e.owed;
        for (Set r = left; r; r &= r - 1) {
            int v = lowest(r), l = f.label[v];
            if (domain[v] & e.at[l])
                continue;
            if (!(needy >> l & 1)) {
                needy |= Set(1) << l;
                common[l] = ~Codes(0);
                need += e.has[l] >= f.least[l];
            }
            if (common[l] == 0)
                continue;
            common[l] &= views(domain[v], f.unseen);
            need += common[l] == 0 && f.least[l] < e.has[l] + 2;
        }
        if (need > e.left)
            return false;
        if (need < e.left)
            return true;
        for (Set r = left; r; r &= r - 1) {
            int v = lowest(r), l = f.label[v], owed = f.least[l] - e.has[l];
            Codes keep = e.at[l];
            if (needy >> l & 1) {
                if (owed > 1 || common[l] == 0)
                    continue;
                keep |= common[l];
            } else if (owed > 0) {
                continue;
            }
            if (domain[v] & ~keep) {
                domain[v] &= keep;
                if (domain[v] == 0)
                    return false;
                again = true;
            }
        }
        return true;
    }

    // The vertex with the fewest codes; of several, one in classes that have entries already.
    int tightest(Set left, const State& state, const Codes* domain, Codes fresh) const
    {
        int best = -1, fewest = 0;
        for (Set r = left; r; r &= r - 1) {
            int v = lowest(r), n = size(domain[v] & fresh) * 2 * OUTPUTS;
            for (int o = 0; o < outputs; o++)
                n += state.output[o].at[fixed[o].label[v]] == 0;
            if (best < 0 || n < fewest) {
                best = v;
                fewest = n;
            }
        }
        return best;
    }

    void give(int v, int code, const State& state, State& next) const
    {
        for (int o = 0; o < outputs; o++) {
            const Fixed& f = fixed[o];
            Entries& e = next.output[o];
            int l = f.label[v];
            e = state.output[o];
            if (e.at[l] >> code & 1)
                continue;
            Codes view = views(Codes(1) << code, f.unseen);
            e.at[l] |= view;
            e.left--;
            e.owed -= e.has[l]++ < f.least[l];
            if (++e.used[code & ~f.unseen] == f.room)
                e.open &= ~view;
        }
        for (int g = 0; g < groups; g++)
            next.values[g] = std::max(state.values[g], value(code, g) + 1);
    }
};

// Chooses what each output reads. Sets of outputs are asked about from pairs upwards. What was found of a set is remembered, for
// other numbers of cells too: it depends only on which outputs share a cell.
class Readings {
public:
    bool serve(int number)
    {
        cells = number;
        return choose(0) == SERVED;
    }

private:
    enum { SERVED = OUTPUTS };
    int cells = 0;
    Set readers[CELLS] = {};                  // of each cell among the outputs so far
    std::unordered_map<uint64_t, bool> known;

    // Chooses for output o and those after it. SERVED, or the last output whose choice has to change before anything can serve.
    int choose(int o)
    {
        if (o == problem.outputs)
            return failing();
        for (Set set = 0; set < Set(1) << cells; set++) {
            if (size(set) != std::min(problem.width[o], cells) || !lowest_first(set))
                continue;
            reads[o] = set;
            if (!possible(o))
                continue;
            for (Set r = set; r; r &= r - 1)
                readers[lowest(r)] |= Set(1) << o;
            int last = choose(o + 1);
            for (Set r = set; r; r &= r - 1)
                readers[lowest(r)] &= ~(Set(1) << o);
            if (last != o)
                return last;
        }
        return o - 1;
    }

    // Cells that the outputs so far read alike are interchangeable: of these an output reads the lowest.
    bool lowest_first(Set set) const
    {
        for (int i = 0; i < cells; i++)
            for (int j = i + 1; j < cells; j++)
                if (readers[i] == readers[j] && (set >> j & 1) > (set >> i & 1))
                    return false;
        return true;
    }

    // What counting, and what is known already, say of the outputs up to o.
    bool possible(int o)
    {
        Set so_far = (Set(2) << o) - 1;
        for (Set b = Set(1) << o; b <= so_far; b++)
            if (problem.joint[b] > 1 << size(read_by_any(b)))
                return false;
        for (int p = 0; p <= o; p++) {
            int sum = 0;
            for (int l = 0; l < problem.classes[p]; l++)
                sum += least_entries(p, l, so_far);
            if (sum > 1 << size(reads[p]))
                return false;
        }
        for (Set b : problem.by_size)
            if (b >> o == 1) {
                auto found = known.find(key(b));
                if (found != known.end() && !found->second)
                    return false;
            }
        return true;
    }

    int failing()
    {
        for (Set a : problem.by_size)
            if (!test(a))
                return 31 - __builtin_clz(a);
        return SERVED;
    }

    bool test(Set a)
    {
        auto [at, fresh] = known.try_emplace(key(a), false);
        if (fresh)
            at->second = Coding(a).serves();
        return at->second;
    }

    // The outputs, and the readers among them of each shared cell, sorted.
    uint64_t key(Set a) const
    {
        uint64_t by[CELLS];
        for (int c = 0; c < CELLS; c++) {
            by[c] = 0;
            for (Set r = a; r; r &= r - 1)
                by[c] |= uint64_t(reads[lowest(r)] >> c & 1) << lowest(r);
            if (size(by[c]) < 2)
                by[c] = 0;
        }
        std::sort(by, by + CELLS);
        uint64_t k = a;
        for (int c = 0; c < CELLS; c++)
            k = k << OUTPUTS | by[c];
        return k;
    }
};

static int fewest()
{
    problem.prepare();
    Readings readings;
    for (int u = problem.least_cells(); u <= problem.limit; u++)
        if (readings.serve(u))
            return u;
    return -1;
}

static double milliseconds()
{
    timespec t;
    clock_gettime(CLOCK_PROCESS_CPUTIME_ID, &t);
    return t.tv_sec * 1e3 + t.tv_nsec / 1e6;
}

int main(int argc, char** argv)
{
    if (argc > 1 && strncmp(argv[1], "CAP=", 4) == 0)
        most_nodes = strtoull(argv[1] + 4, nullptr, 10);
    double total = 0;
    while (problem.read()) {
        double start = milliseconds();
        char answer[16] = "cap";
        nodes = 0;
        try {
            int u = fewest();
            snprintf(answer, sizeof answer, u < 0 ? "inf" : "%d", u);
        } catch (Capped) {
        }
        double spent = milliseconds() - start;
        printf("%s %llu %.3f\n", answer, (unsigned long long)nodes, spent);
        fflush(stdout);
        total += spent;
    }
    fprintf(stderr, "total %.3f ms\n", total);
}
