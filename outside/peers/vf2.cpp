// Boost.Graph's vf2_subgraph_mono on the benchmark's cases, out-edges in hash sets. A call builds
// both graphs and lists every place.
#include "cases.h"
#include <boost/graph/adjacency_list.hpp>
#include <boost/graph/vf2_sub_graph_iso.hpp>
#include <vector>

using Graph = boost::adjacency_list<boost::hash_setS, boost::vecS, boost::undirectedS, boost::property<boost::vertex_name_t, int>>;

static Graph graph(const sheet &s) {
    Graph g(s.n);
    for (int i = 0; i < s.n; i += 1) {
        boost::put(boost::vertex_name, g, i, s.kinds[i]);
    }
    for (int i = 0; i < s.m; i += 1) {
        boost::add_edge(s.first[i], s.second[i], g);
    }
    return g;
}

static long search(const one_case *c) {
    Graph figure = graph(c->figure), patch = graph(c->patch);
    std::vector<std::vector<unsigned short>> rows;
    auto place = [&](auto to_patch, auto) {
        std::vector<unsigned short> row(num_vertices(figure));
        for (auto u : boost::make_iterator_range(vertices(figure))) {
            row[u] = (unsigned short)get(to_patch, u);
        }
        rows.push_back(row);
        return true;
    };
    auto kinds = boost::make_property_map_equivalent(get(boost::vertex_name, figure), get(boost::vertex_name, patch));
    boost::vf2_subgraph_mono(figure, patch, place, boost::vertex_order_by_mult(figure), boost::vertices_equivalent(kinds));
    return (long)rows.size();
}

int main(int argc, char **argv) {
    static one_case c;
    FILE *file = argc == 2 ? fopen(argv[1], "r") : nullptr;
    if (file == nullptr) {
        return 2;
    }
    while (read_case(file, &c)) {
        measure("boost", &c, search);
    }
    return 0;
}
