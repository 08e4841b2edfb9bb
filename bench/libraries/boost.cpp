// Boost.Graph: astar_search on a graph that is not built, but tells the moves of a cell when it is asked.
#include "common.hpp"

#include <boost/graph/astar_search.hpp>
#include <boost/iterator/iterator_facade.hpp>
#include <boost/property_map/function_property_map.hpp>
#include <boost/range/irange.hpp>

struct Grid {
    const Map &map;
};
struct Edge {
    uint32_t from, to;
    uint8_t direction;
    bool operator==(const Edge &other) const { return from == other.from && to == other.to; }
    bool operator!=(const Edge &other) const { return !(*this == other); }
};
struct Edges : boost::iterator_facade<Edges, Edge, boost::forward_traversal_tag, Edge> {
    uint32_t from = 0;
    int width = 0;
    unsigned left = 0;                                       // the moves that are still to come
    Edges() = default;
    Edges(uint32_t cell, int across, unsigned moves) : from(cell), width(across), left(moves) {}
    Edge dereference() const {
        int d = __builtin_ctz(left);
        return Edge{from, uint32_t(int(from) + DY[d] * width + DX[d]), uint8_t(d)};
    }
    void increment() { left &= left - 1; }
    bool equal(const Edges &other) const { return left == other.left; }
};

namespace boost {
template <> struct graph_traits<Grid> {
    using vertex_descriptor = uint32_t;
    using edge_descriptor = Edge;
    using out_edge_iterator = Edges;
    using vertex_iterator = integer_range<uint32_t>::const_iterator;
    using directed_category = directed_tag;
    using edge_parallel_category = disallow_parallel_edge_tag;
    struct traversal_category : incidence_graph_tag, vertex_list_graph_tag {};
    using vertices_size_type = uint32_t;
    using edges_size_type = uint32_t;
    using degree_size_type = uint32_t;
    static vertex_descriptor null_vertex() { return ~0u; }
};
}  // namespace boost

static std::pair<Edges, Edges> out_edges(uint32_t cell, const Grid &grid) {
    return {Edges(cell, grid.map.width, grid.map.legal[cell]), Edges(cell, grid.map.width, 0)};
}
static uint32_t source(const Edge &edge, const Grid &) { return edge.from; }
static uint32_t target(const Edge &edge, const Grid &) { return edge.to; }
static uint32_t out_degree(uint32_t cell, const Grid &grid) {
    return uint32_t(__builtin_popcount(grid.map.legal[cell]));
}
static uint32_t num_vertices(const Grid &grid) { return uint32_t(grid.map.cells.size()); }
static auto vertices(const Grid &grid) {
    auto range = boost::irange<uint32_t>(0, num_vertices(grid));
    return std::make_pair(range.begin(), range.end());
}

struct Found {};
struct EndAtGoal : boost::default_astar_visitor {
    uint32_t goal;
    explicit EndAtGoal(uint32_t cell) : goal(cell) {}
    template <class G> void examine_vertex(uint32_t cell, const G &) {
        if (cell == goal) throw Found();
    }
};
struct Estimate : boost::astar_heuristic<Grid, double> {
    int width, goal_x, goal_y;
    Estimate(int across, int x, int y) : width(across), goal_x(x), goal_y(y) {}
    double operator()(uint32_t cell) const { return octile(int(cell) % width - goal_x, int(cell) / width - goal_y); }
};

int main(int, char **words) {
    double began = now();
    Map map(words[1]);
    auto queries = read_scenario(words[2]);
    Grid grid{map};
    size_t count = map.cells.size();
    std::vector<uint32_t> parents(count);
    std::vector<double> costs(count), sums(count);
    std::vector<boost::default_color_type> colors(count);
    auto index = boost::identity_property_map();
    auto length = [](const Edge &edge) { return edge.direction & 1 ? SQRT2 : 1.0; };
    auto weight = boost::make_function_property_map<Edge>(length);
    auto by_cell = [&](auto &values) { return boost::make_iterator_property_map(values.begin(), index); };
    auto length_of = [&](const Query &it) -> double {
        uint32_t start = uint32_t(map.number(it.start_x, it.start_y));
        uint32_t goal = uint32_t(map.number(it.goal_x, it.goal_y));
        try {
            boost::astar_search(grid, start, Estimate(map.width, it.goal_x, it.goal_y),
                                boost::visitor(EndAtGoal(goal)).vertex_index_map(index).weight_map(weight)
                                    .predecessor_map(by_cell(parents)).distance_map(by_cell(costs))
                                    .rank_map(by_cell(sums)).color_map(by_cell(colors)));
        } catch (Found) {
            return costs[goal];
        }
        return -1;
    };
    measure(began, words, map, queries, length_of, [&](const Query &it, std::vector<uint32_t> &cells) {
        uint32_t start = uint32_t(map.number(it.start_x, it.start_y));
        uint32_t cell = uint32_t(map.number(it.goal_x, it.goal_y));
        for (; cell != start; cell = parents[cell]) cells.push_back(cell);
        cells.push_back(start);
        std::reverse(cells.begin(), cells.end());
    });
}
