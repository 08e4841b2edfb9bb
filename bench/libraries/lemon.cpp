// LEMON: Dijkstra on a built digraph, ended at the goal. LEMON has no A*.
#include "common.hpp"

#include <lemon/dijkstra.h>
#include <lemon/static_graph.h>

int main(int, char **words) {
    double began = now();
    Map map(words[1]);
    auto queries = read_scenario(words[2]);
    std::vector<std::pair<int, int>> arcs;
    std::vector<double> lengths;
    int count = int(map.cells.size());
    for (int cell = 0; cell < count; cell++)
        for (int d = 0; d < 8; d++)
            if (map.legal[size_t(cell)] >> d & 1) {
                arcs.emplace_back(cell, cell + DY[d] * map.width + DX[d]);
                lengths.push_back(d & 1 ? SQRT2 : 1.0);
            }
    lemon::StaticDigraph graph;
    graph.build(count, arcs.begin(), arcs.end());
    lemon::StaticDigraph::ArcMap<double> weights(graph);
    for (size_t arc = 0; arc < lengths.size(); arc++) weights[graph.arc(int(arc))] = lengths[arc];
    lemon::Dijkstra<lemon::StaticDigraph, lemon::StaticDigraph::ArcMap<double>> search(graph, weights);
    auto length_of = [&](const Query &it) -> double {
        auto goal = graph.node(int(map.number(it.goal_x, it.goal_y)));
        return search.run(graph.node(int(map.number(it.start_x, it.start_y))), goal) ? search.dist(goal) : -1;
    };
    measure(began, words, map, queries, length_of, [&](const Query &it, std::vector<uint32_t> &cells) {
        auto node = graph.node(int(map.number(it.goal_x, it.goal_y)));
        for (; node != lemon::INVALID; node = search.predNode(node)) cells.push_back(uint32_t(graph.id(node)));
        std::reverse(cells.begin(), cells.end());
    });
}
