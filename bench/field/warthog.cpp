// warthog (https://bitbucket.org/dharabor/pathfinding): its JPS, for bench/contest. NOT RUN HERE: written
// from its public interface; where your version has other names, change them here and nothing else.
//
//     g++ -std=c++17 -O3 -march=native -DNDEBUG -I WARTHOG/src/... -o warthog warthog.cpp LIBWARTHOG.a
//     warthog MAP SCEN
#include "flexible_astar.h"
#include "gridmap.h"
#include "jps_expansion_policy.h"
#include "octile_heuristic.h"
#include "pqueue.h"
#include "scenario_manager.h"

#include <chrono>
#include <cstdio>

int main(int, char **words) {
    auto began = std::chrono::steady_clock::now();
    auto nanoseconds = [](auto from) {
        return std::chrono::duration_cast<std::chrono::nanoseconds>(std::chrono::steady_clock::now() - from).count();
    };
    warthog::gridmap map(words[1]);
    warthog::jps_expansion_policy expander(&map);
    warthog::octile_heuristic heuristic(map.width(), map.height());
    warthog::pqueue_min open;
    warthog::flexible_astar<warthog::octile_heuristic, warthog::jps_expansion_policy, warthog::pqueue_min> astar(
        &heuristic, &expander, &open);
    warthog::scenario_manager scenarios;
    scenarios.load_scenario(words[2]);
    std::printf("prepared %lld\n", (long long)nanoseconds(began));
    for (unsigned place = 0; place < scenarios.num_experiments(); place++) {
        warthog::experiment *it = scenarios.get_experiment(place);
        auto before = std::chrono::steady_clock::now();
        warthog::problem_instance problem(it->starty() * map.header_width() + it->startx(),
                                          it->goaly() * map.header_width() + it->goalx());
        warthog::solution solution;
        astar.get_path(problem, solution);
        long long spent = nanoseconds(before);
        for (auto cell : solution.path_) {
            unsigned x, y;
            map.to_unpadded_xy(unsigned(cell), x, y);
            std::printf("%u,%u ", x, y);
        }
        std::printf("%s%lld %u\n", solution.path_.empty() ? "none " : "", spent, unsigned(solution.nodes_expanded_));
    }
}
