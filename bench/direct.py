"""The direct encoding of 'some network with u tables serves' as clauses, from class labels.

Variables: t(i, v), table i at vertex v; r(o, i), output o reads table i; g(o, j), output o reads given table j; x(i, v, w),
table i differs between v and w; and e(o, i, v, w), output o reads table i and it differs there. For each output and each two
vertices of different classes some e holds, or some g of a given table that differs there; no output reads more tables than its
budget; every table is 0 at vertex 0, and table 0 has its known digits."""
import itertools


def width(labels):
    classes = len(set(labels))
    return (classes - 1).bit_length()


def read_labels(text):
    """vertices, limit and a list of labels for each output"""
    numbers = [int(word) for word in text.split()]
    vertices, outputs, limit = numbers[:3]
    rows = [numbers[3 + o * vertices:3 + (o + 1) * vertices] for o in range(outputs)]
    return vertices, limit, rows


def encode(vertices, rows, u, budgets=None, given=(), known=()):
    """the clauses, as a text in DIMACS form. Unless given, budgets are widths; given tables are lists of digits; known has a
    digit or None for each vertex, and 0 or None for vertex 0"""
    numbers = {}
    clauses = []

    def var(*key):
        return numbers.setdefault(key, len(numbers) + 1)

    pairs = list(itertools.combinations(range(vertices), 2))
    for i in range(u):
        clauses.append([-var("t", i, 0)])
        for v, w in pairs:
            x, a, b = var("x", i, v, w), var("t", i, v), var("t", i, w)
            clauses += [[-x, a, b], [-x, -a, -b]]
    for v, digit in enumerate(known):
        if digit is not None:
            clauses.append([var("t", 0, v) if digit else -var("t", 0, v)])
    tables = [("r", i) for i in range(u)] + [("g", j) for j in range(len(given))]
    for o, labels in enumerate(rows):
        budget = width(labels) if budgets is None else budgets[o]
        for chosen in itertools.combinations(tables, min(budget, len(tables)) + 1):
            clauses.append([-var(kind, o, i) for kind, i in chosen])
        for v, w in pairs:
            if labels[v] == labels[w]:
                continue
            for i in range(u):
                e = var("e", o, i, v, w)
                clauses += [[-e, var("r", o, i)], [-e, var("x", i, v, w)]]
            clauses.append([var("e", o, i, v, w) for i in range(u)] + [var("g", o, j) for j, table in enumerate(given) if table[v] != table[w]])
    head = f"p cnf {len(numbers)} {len(clauses)}\n"
    return head + "".join(" ".join(map(str, c)) + " 0\n" for c in clauses)
