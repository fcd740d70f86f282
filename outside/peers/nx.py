"""networkx on the benchmark's cases: nx.py FILE [GROUP...]. A call builds both graphs and lists every place."""
import sys
import time

import networkx
from networkx.algorithms.isomorphism import GraphMatcher

LONGEST = 5.0


def sheets(path):
    words = iter(open(path, encoding="utf-8").read().split())
    for group in words:
        index = int(next(words))
        pair = []
        for _ in range(2):
            n, m = int(next(words)), int(next(words))
            kinds = [int(next(words)) for _ in range(n)]
            lines = [(int(next(words)), int(next(words))) for _ in range(m)]
            pair.append((kinds, lines))
        yield group, index, pair[0], pair[1]


def graph(kinds, lines):
    made = networkx.Graph()
    made.add_nodes_from((v, {"kind": kind}) for v, kind in enumerate(kinds))
    made.add_edges_from(lines)
    return made


def same_kind(a, b):
    return a["kind"] == b["kind"]


def search(figure, patch):
    """The places, or None where it takes longer than LONGEST."""
    start = time.perf_counter()
    rows = []
    matcher = GraphMatcher(graph(*patch), graph(*figure), node_match=same_kind)
    for place in matcher.subgraph_monomorphisms_iter():
        rows.append({u: v for v, u in place.items()})
        if time.perf_counter() - start > LONGEST:
            return None
    return rows


for group, index, figure, patch in sheets(sys.argv[1]):
    if sys.argv[2:] and group not in sys.argv[2:]:
        continue
    times = []
    while len(times) < 9 and (len(times) < 1 or sum(times) < 1):
        begin = time.perf_counter_ns()
        rows = search(figure, patch)
        times.append((time.perf_counter_ns() - begin) / 1e9)
    count = -1 if rows is None else len(rows)
    print(group, index, "networkx", round(1e9 * sorted(times)[len(times) // 2]), count, 0, flush=True)
