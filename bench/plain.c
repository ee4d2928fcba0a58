#include "plain.h"

#include <stdio.h>
#include <string.h>

enum { INPUTS = 10, BOUND = 5, OUTPUTS = 4, LUTS = 6, NAME = 9, NODES = 4096, ROWS = 1024 };

/* A node of a formula's tree; its operands are a list by `next`. */
struct node {
    char kind; /* 'i' an input, '0', '1', 'n', 'a', 'o', 'x' */
    int input, first, next;
};

struct design {
    int inputs, bounds, limit, outputs, nodes;
    char name[INPUTS][NAME], output[OUTPUTS][NAME];
    int bound[BOUND], formula[OUTPUTS];
    struct node node[NODES];
};

struct reader {
    const char *at, *end;
};

static int take(struct reader *r, const char *word)
{
    size_t n = strlen(word);
    if ((size_t)(r->end - r->at) < n || memcmp(r->at, word, n) != 0)
        return 0;
    r->at += n;
    return 1;
}

static char lower(char c)
{
    return c >= 'A' && c <= 'Z' ? (char)(c - 'A' + 'a') : c;
}

/* A name in small letters, whatever case it has. */
static int take_name(struct reader *r, char *name)
{
    int n = 0;
    for (; r->at < r->end && n < NAME - 1; r->at++) {
        char c = lower(*r->at);
        if ((c < 'a' || c > 'z') && (n == 0 || c < '0' || c > '9'))
            break;
        name[n++] = c;
    }
    name[n] = 0;
    return n > 0;
}

static int take_same(struct reader *r, const char *name)
{
    char other[NAME];
    return take_name(r, other) && strcmp(other, name) == 0;
}

static int take_number(struct reader *r)
{
    int n = -1;
    while (r->at < r->end && *r->at >= '0' && *r->at <= '9')
        n = (n < 0 ? 0 : n) * 10 + (*r->at++ - '0');
    return n;
}

static int find(struct design *d, const char *name)
{
    int i;
    for (i = 0; i < d->inputs; i++)
        if (strcmp(d->name[i], name) == 0)
            return i;
    return -1;
}

static int make(struct design *d, char kind, int input)
{
    if (d->nodes == NODES)
        return -1;
    d->node[d->nodes].kind = kind;
    d->node[d->nodes].input = input;
    d->node[d->nodes].first = d->node[d->nodes].next = -1;
    return d->nodes++;
}

static int read_formula(struct reader *r, struct design *d, int depth)
{
    char name[NAME];
    int self, last = -1, operand, input;
    if (take(r, "0"))
        return make(d, '0', 0);
    if (take(r, "1"))
        return make(d, '1', 0);
    if (!take(r, "(")) {
        if (!take_name(r, name) || (input = find(d, name)) < 0)
            return -1;
        return make(d, 'i', input);
    }
    if (depth == 32 || !take_name(r, name))
        return -1;
    self = make(d, name[0], 0);
    while (self >= 0 && take(r, " ")) {
        operand = read_formula(r, d, depth + 1);
        if (operand < 0)
            return -1;
        if (last < 0)
            d->node[self].first = operand;
        else
            d->node[last].next = operand;
        last = operand;
    }
    return take(r, ")") ? self : -1;
}

static int read_design(const char *text, size_t length, struct design *d)
{
    struct reader r = {text, text + length};
    char name[NAME];
    d->inputs = d->bounds = d->outputs = d->nodes = 0;
    if (!take(&r, "(design 1)\n(in"))
        return 0;
    while (d->inputs < INPUTS && take(&r, " "))
        if (!take_name(&r, d->name[d->inputs++]))
            return 0;
    if (!take(&r, ")\n(bound"))
        return 0;
    while (d->bounds < BOUND && take(&r, " "))
        if (!take_name(&r, name) || (d->bound[d->bounds++] = find(d, name)) < 0)
            return 0;
    if (!take(&r, ")\n(limit ") || (d->limit = take_number(&r)) < 0 || !take(&r, ")\n"))
        return 0;
    while (d->outputs < OUTPUTS && take(&r, "(out ")) {
        if (!take_name(&r, d->output[d->outputs]) || !take(&r, " "))
            return 0;
        d->formula[d->outputs] = read_formula(&r, d, 0);
        if (d->formula[d->outputs++] < 0 || !take(&r, ")\n"))
            return 0;
    }
    return d->outputs > 0 && take(&r, "(end)\n") && r.at == r.end;
}

static int value(const struct design *d, int n, int row)
{
    const struct node *f = &d->node[n];
    int ones = 0, all = 0, k;
    if (f->kind == 'i')
        return row >> (d->inputs - 1 - f->input) & 1;
    if (f->kind == '0' || f->kind == '1')
        return f->kind == '1';
    for (k = f->first; k >= 0; k = d->node[k].next, all++)
        ones += value(d, k, row);
    switch (f->kind) {
    case 'n': return !ones;
    case 'a': return ones == all;
    case 'o': return ones > 0;
    default: return ones & 1;
    }
}

int plain_table(const char *sheet, size_t length, int output, char *digits)
{
    static struct design d;
    int row;
    if (!read_design(sheet, length, &d) || output >= d.outputs)
        return -1;
    for (row = 0; row < 1 << d.inputs; row++)
        digits[row] = (char)('0' + value(&d, d.formula[output], row));
    return row;
}

/* ---- Check */

struct network {
    int luts, reads[OUTPUTS], read[OUTPUTS][LUTS];
    const char *lut[LUTS], *node[OUTPUTS];
};

static int take_list(struct reader *r, struct design *d, const int *input, int n, int some)
{
    int i;
    for (i = 0; i < n; i++)
        if (((i > 0 || some) && !take(r, " ")) || !take_same(r, d->name[input[i]]))
            return 0;
    return take(r, ") ");
}

static const char *take_digits(struct reader *r, int inputs)
{
    const char *start = r->at;
    while (r->at < r->end && (*r->at == '0' || *r->at == '1'))
        r->at++;
    return r->at - start == 1 << inputs && take(r, ")\n") ? start : NULL;
}

static int read_network(const char *text, size_t length, struct design *d, const int *free_input, int frees, struct network *w)
{
    struct reader r = {text, text + length};
    char word[32];
    int o, i;
    w->luts = 0;
    if (!take(&r, "(network 1)\n"))
        return 0;
    for (;; w->luts++) {
        sprintf(word, "(lut _%d (", w->luts);
        if (w->luts == LUTS || !take(&r, word))
            break;
        if (!take_list(&r, d, d->bound, d->bounds, 0) || !(w->lut[w->luts] = take_digits(&r, d->bounds)))
            return 0;
    }
    for (o = 0; o < d->outputs; o++) {
        if (!take(&r, "(node ") || !take_same(&r, d->output[o]) || !take(&r, " ("))
            return 0;
        for (w->reads[o] = i = 0; i < w->luts; i++) {
            sprintf(word, w->reads[o] > 0 ? " _%d" : "_%d", i);
            if (take(&r, word))
                w->read[o][w->reads[o]++] = i;
        }
        if (!take_list(&r, d, free_input, frees, w->reads[o] > 0) || !(w->node[o] = take_digits(&r, w->reads[o] + frees)))
            return 0;
    }
    sprintf(word, "(count %d)\n(end)\n", w->luts);
    return take(&r, word) && r.at == r.end;
}

/* The row over some inputs that a row over all of them has. */
static int part(const struct design *d, const int *input, int n, int row)
{
    int i, p = 0;
    for (i = 0; i < n; i++)
        p = p << 1 | (row >> (d->inputs - 1 - input[i]) & 1);
    return p;
}

/* How many of the first vertices have columns of their own, as a width. */
static int width(char column[1 << BOUND][ROWS], int vertices, int frees)
{
    int v, u, classes = 0, w = 0;
    for (v = 0; v < vertices; v++) {
        for (u = 0; u < v && memcmp(column[u], column[v], (size_t)1 << frees) != 0; u++)
            ;
        classes += u == v;
    }
    while (1 << w < classes)
        w++;
    return w;
}

int plain_check(const char *sheet, size_t length, const char *network, size_t network_length, int *output, int *row)
{
    static struct design d;
    static char column[OUTPUTS][1 << BOUND][ROWS];
    struct network w;
    int free_input[INPUTS], frees = 0, i, o, r, vertex, code;
    if (!read_design(sheet, length, &d))
        return -1;
    for (i = 0; i < d.inputs; i++) {
        for (o = 0; o < d.bounds && d.bound[o] != i; o++)
            ;
        if (o == d.bounds)
            free_input[frees++] = i;
    }
    if (!read_network(network, network_length, &d, free_input, frees, &w) || w.luts > d.limit)
        return -1;
    for (o = 0; o < d.outputs; o++) {
        for (r = 0; r < 1 << d.inputs; r++)
            column[o][part(&d, d.bound, d.bounds, r)][part(&d, free_input, frees, r)] = (char)('0' + value(&d, d.formula[o], r));
        if (w.reads[o] > width(column[o], 1 << d.bounds, frees))
            return -1;
    }
    for (o = 0; o < d.outputs; o++)
        for (r = 0; r < 1 << d.inputs; r++) {
            vertex = part(&d, d.bound, d.bounds, r);
            for (code = i = 0; i < w.reads[o]; i++)
                code = code << 1 | (w.lut[w.read[o][i]][vertex] == '1');
            i = part(&d, free_input, frees, r);
            if (w.node[o][code << frees | i] != column[o][vertex][i]) {
                *output = o;
                *row = r;
                return 0;
            }
        }
    return 1;
}
