// HOG2 (https://github.com/nathansttt/hog2): its A* on a grid, for bench/contest. NOT RUN HERE: written from
// its public interface; where your version has other names, change them here and nothing else. Its JPS class
// has the same GetPath.
//
//     g++ -std=c++17 -O3 -march=native -DNO_OPENGL -I HOG2/... -o hog2 hog2.cpp LIBRARIES
//     hog2 MAP SCEN
#include "Map2DEnvironment.h"
#include "ScenarioLoader.h"
#include "TemplateAStar.h"

#include <chrono>
#include <cstdio>

int main(int, char **words) {
    auto began = std::chrono::steady_clock::now();
    auto nanoseconds = [](auto from) {
        return std::chrono::duration_cast<std::chrono::nanoseconds>(std::chrono::steady_clock::now() - from).count();
    };
    MapEnvironment grid(new Map(words[1]));
    grid.SetDiagonalCost(1.41421356237309504880);
    TemplateAStar<xyLoc, tDirection, MapEnvironment> search;
    ScenarioLoader scenarios(words[2]);
    std::printf("prepared %lld\n", (long long)nanoseconds(began));
    for (int place = 0; place < scenarios.GetNumExperiments(); place++) {
        Experiment it = scenarios.GetNthExperiment(place);
        std::vector<xyLoc> cells;
        auto before = std::chrono::steady_clock::now();
        search.GetPath(&grid, xyLoc(it.GetStartX(), it.GetStartY()), xyLoc(it.GetGoalX(), it.GetGoalY()), cells);
        long long spent = nanoseconds(before);
        for (const xyLoc &cell : cells) std::printf("%d,%d ", int(cell.x), int(cell.y));
        std::printf("%s%lld %llu\n", cells.empty() ? "none " : "", spent, (unsigned long long)search.GetNodesExpanded());
    }
}
