#include "calls.h"

#include "cellmapper.h"

#include <algorithm>
#include <cstdio>
#include <cstdlib>
#include <cstring>
#include <sys/mman.h>

namespace {

const size_t PAGE = 4096, SHEET_PAGES = 4, PLA_PAGES = 9, BLIF_PAGES = 16;
const unsigned char FILL = 0xA5;
const size_t GARBAGE = 0xDEADBEEF;

// Memory between two pages that may not be touched.
class Place {
public:
    explicit Place(size_t pages) : room(PAGE * pages), fill(room, char(FILL))
    {
        void *all = mmap(nullptr, room + 2 * PAGE, PROT_NONE, MAP_PRIVATE | MAP_ANONYMOUS, -1, 0);
        if (all == MAP_FAILED || mprotect(static_cast<char *>(all) + PAGE, room, PROT_READ | PROT_WRITE) != 0) {
            perror("no memory for a test");
            exit(2);
        }
        base = static_cast<unsigned char *>(all) + PAGE;
    }

    // A part of the given size at either end, with the bytes of `text` at its start and FILL everywhere else.
    unsigned char *lend(size_t size, const std::string &text, bool at_end)
    {
        if (size > room) {
            fprintf(stderr, "a test asks for %zu bytes\n", size);
            exit(2);
        }
        memset(base, FILL, room);
        start = at_end ? base + room - size : base;
        memcpy(start, text.data(), text.size());
        return start;
    }

    // Whether all is as `lend` left it, but for the first `written` bytes of the part.
    bool untouched(const std::string &text, size_t written) const
    {
        if (written <= text.size() && memcmp(start + written, text.data() + written, text.size() - written) != 0)
            return false;
        const unsigned char *from = start + std::max(written, text.size());
        return all_fill(base, start) && all_fill(from, base + room);
    }

private:
    bool all_fill(const unsigned char *from, const unsigned char *to) const
    {
        return memcmp(from, fill.data(), size_t(to - from)) == 0;
    }

    size_t room;
    std::string fill;
    unsigned char *base, *start = nullptr;
};

Place sheets(SHEET_PAGES), plas(PLA_PAGES), boards(SHEET_PAGES), networks(SHEET_PAGES), buffers(SHEET_PAGES), texts(BLIF_PAGES);
unsigned long calls;

// Ends alternate, so that a step outside either end is met. An empty text has a null pointer on every other pair of calls.
unsigned char *lend(Place &place, size_t size, const std::string &text)
{
    unsigned char *p = place.lend(size, text, calls % 2 == 0);
    return size == 0 && calls % 4 < 2 ? nullptr : p;
}

// The texts of a source, lent to one call.
class Lent {
public:
    explicit Lent(const Source &source) : source(source)
    {
        if (source.pla)
            board = lend(boards, source.board.size(), source.board);
        text = lend(place(), source.text.size(), source.text);
    }

    bool untouched() const
    {
        return place().untouched(source.text, 0) && (!source.pla || boards.untouched(source.board, 0));
    }

    const unsigned char *text, *board = nullptr;

private:
    Place &place() const { return source.pla ? plas : sheets; }

    const Source &source;
};

std::string first_bytes(const unsigned char *p, size_t n)
{
    return n == 0 ? std::string() : std::string(reinterpret_cast<const char *>(p), n);
}

}

void start_at_way(unsigned way)
{
    calls = way;
}

void expect(bool good, const std::string &what, const Source &source, const std::string &network)
{
    if (good)
        return;
    fprintf(stderr, "FAILED: %s\n---- %s, %zu bytes\n%s\n", what.c_str(), source.pla ? "PLA text" : "design sheet", source.text.size(), source.text.c_str());
    if (source.pla)
        fprintf(stderr, "---- second text, %zu bytes\n%s\n", source.board.size(), source.board.c_str());
    fprintf(stderr, "---- network sheet, %zu bytes\n%s\n----\n", network.size(), network.c_str());
    exit(1);
}

Tabled call_table(const Source &source, size_t output, size_t room)
{
    Tabled t = {0, GARBAGE, GARBAGE, ""};
    Lent lent(source);
    unsigned char *b = lend(buffers, room, "");
    size_t n = source.text.size(), m = source.board.size();
    t.number = source.pla ? cellmapper_pla_table(lent.text, n, lent.board, m, output, b, room, &t.line, &t.written)
                          : cellmapper_table(lent.text, n, output, b, room, &t.line, &t.written);
    calls++;
    expect(t.written <= room, "Table says it wrote more than there was room for", source);
    expect(lent.untouched(), "Table wrote into a text", source);
    expect(buffers.untouched("", t.written), "Table wrote past its digits, or on a refusal", source);
    expect(t.number == 0 ? t.line == 0 : t.written == 0, "Table left an out-parameter that does not apply", source);
    t.digits = first_bytes(b, t.written);
    return t;
}

Mapped call_map(const Source &source, size_t room)
{
    Mapped m = {0, GARBAGE, GARBAGE, GARBAGE, ""};
    Lent lent(source);
    unsigned char *b = lend(buffers, room, "");
    size_t n = source.text.size(), k = source.board.size();
    m.number = source.pla ? cellmapper_pla_map(lent.text, n, lent.board, k, b, room, &m.line, &m.cells, &m.length)
                          : cellmapper_map(lent.text, n, b, room, &m.line, &m.cells, &m.length);
    calls++;
    expect(m.length <= room, "Map says it wrote more than there was room for", source);
    expect(lent.untouched(), "Map wrote into a text", source);
    expect(buffers.untouched("", m.length), "Map wrote past its network, or on a refusal", source);
    expect(m.number == 0 ? m.line == 0 : m.cells == 0 && m.length == 0, "Map left an out-parameter that does not apply", source);
    m.network = first_bytes(b, m.length);
    return m;
}

Checked call_check(const Source &source, const std::string &network)
{
    Checked c = {0, GARBAGE, GARBAGE, GARBAGE, GARBAGE};
    Lent lent(source);
    const unsigned char *w = lend(networks, network.size(), network);
    size_t n = source.text.size(), m = source.board.size(), k = network.size();
    c.number = source.pla ? cellmapper_pla_check(lent.text, n, lent.board, m, w, k, &c.line, &c.differs, &c.output, &c.row)
                          : cellmapper_check(lent.text, n, w, k, &c.line, &c.differs, &c.output, &c.row);
    calls++;
    expect(lent.untouched() && networks.untouched(network, 0), "Check wrote into a text", source, network);
    expect(c.number == 0 ? c.line == 0 : c.differs == 0, "Check left an out-parameter that does not apply", source, network);
    expect(c.differs <= 1 && (c.differs == 1 || (c.output == 0 && c.row == 0)), "Check left output or row set", source, network);
    return c;
}

Exported call_export(const Source &sheet, const std::string &network, size_t room)
{
    Exported e = {0, GARBAGE, GARBAGE, ""};
    Lent lent(sheet);
    unsigned char *n = lend(networks, network.size(), network), *b = lend(texts, room, "");
    e.number = cellmapper_export(lent.text, sheet.text.size(), n, network.size(), b, room, &e.line, &e.length);
    calls++;
    expect(e.length <= room, "Export says it wrote more than there was room for", sheet, network);
    expect(lent.untouched() && networks.untouched(network, 0), "Export wrote into a sheet", sheet, network);
    expect(texts.untouched("", e.length), "Export wrote past its text, or on a refusal", sheet, network);
    expect(e.number == 0 ? e.line == 0 : e.length == 0, "Export left an out-parameter that does not apply", sheet, network);
    e.text = first_bytes(b, e.length);
    return e;
}

size_t call_cause(const Source &source)
{
    size_t outputs = GARBAGE;
    Lent lent(source);
    size_t n = source.text.size(), m = source.board.size();
    unsigned result = source.pla ? cellmapper_pla_cause(lent.text, n, lent.board, m, &outputs) : cellmapper_cause(lent.text, n, &outputs);
    calls++;
    expect(result == 0, "the result of the cause is 0", source);
    expect(lent.untouched(), "the cause wrote into a text", source);
    expect(outputs < 16, "the cause is a set of at most four outputs", source);
    return outputs;
}

std::vector<Part> call_lines(const std::string &sheet, const std::string &network, const std::vector<Named> &named)
{
    std::vector<Part> parts;
    const unsigned char *s = lend(sheets, sheet.size(), sheet), *w = lend(networks, network.size(), network);
    for (const Named &n : named) {
        Part p = {GARBAGE, GARBAGE, GARBAGE};
        unsigned result = cellmapper_line(s, sheet.size(), w, network.size(), n.number, n.line, &p.second, &p.start, &p.length);
        expect(result == 0 && p.second <= 1, "the result of a line is 0, and it is of the first or the second sheet", sheet, network);
        size_t size = p.second ? network.size() : sheet.size();
        expect(p.start <= size && p.length <= size - p.start, "a line is a part of its sheet", sheet, network);
        parts.push_back(p);
    }
    calls++;
    expect(sheets.untouched(sheet, 0) && networks.untouched(network, 0), "a line was asked for and a sheet written into", sheet, network);
    return parts;
}
