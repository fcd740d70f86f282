/* igraph's LAD on the benchmark's cases: not induced, domains by kind. A call builds both graphs and
 * the domains and lists every place. */
#include "cases.h"
#include <igraph/igraph.h>

static void graph(igraph_t *to, const struct sheet *s) {
    igraph_vector_int_t ends;
    igraph_vector_int_init(&ends, 2 * s->m);
    for (int i = 0; i < s->m; i += 1) {
        VECTOR(ends)[2 * i] = s->first[i];
        VECTOR(ends)[2 * i + 1] = s->second[i];
    }
    igraph_create(to, &ends, s->n, IGRAPH_UNDIRECTED);
    igraph_vector_int_destroy(&ends);
}

static void domains(igraph_vector_int_list_t *to, const struct one_case *c) {
    igraph_vector_int_list_init(to, c->figure.n);
    for (int u = 0; u < c->figure.n; u += 1) {
        for (int v = 0; v < c->patch.n; v += 1) {
            if (c->figure.kinds[u] == c->patch.kinds[v]) {
                igraph_vector_int_push_back(igraph_vector_int_list_get_ptr(to, u), v);
            }
        }
    }
}

static long search(const struct one_case *c) {
    igraph_t figure, patch;
    igraph_vector_int_list_t sets, maps;
    igraph_bool_t any;
    graph(&figure, &c->figure);
    graph(&patch, &c->patch);
    domains(&sets, c);
    igraph_vector_int_list_init(&maps, 0);
    igraph_subisomorphic_lad(&figure, &patch, &sets, &any, NULL, &maps, 0, 0);
    long places = igraph_vector_int_list_size(&maps);
    igraph_vector_int_list_destroy(&maps);
    igraph_vector_int_list_destroy(&sets);
    igraph_destroy(&patch);
    igraph_destroy(&figure);
    return places;
}

int main(int argc, char **argv) {
    static struct one_case c;
    FILE *file = argc == 2 ? fopen(argv[1], "r") : NULL;
    if (file == NULL) {
        return 2;
    }
    while (read_case(file, &c)) {
        measure("igraph", &c, search);
    }
    return 0;
}
