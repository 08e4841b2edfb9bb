// What the programs in C++ that ask a library have in common: the map with its legal moves (no corner is
// cut), the scenario, and the line that tells the times.
#pragma once

#include <algorithm>
#include <cmath>
#include <cstdint>
#include <cstdio>
#include <cstdlib>
#include <ctime>
#include <fstream>
#include <sstream>
#include <string>
#include <vector>

static const int DX[8] = {0, 1, 1, 1, 0, -1, -1, -1};
static const int DY[8] = {-1, -1, 0, 1, 1, 1, 0, -1};
static const double SQRT2 = 1.41421356237309504880;

struct Map {
    int width = 0, height = 0;
    std::vector<uint8_t> cells, legal;                       // 1 for a free cell; bit d for a legal move in direction d

    explicit Map(const char *name) {
        std::ifstream file(name);
        std::string word, line;
        file >> word >> word >> word >> height >> word >> width >> word;
        std::getline(file, line);
        cells.resize(size_t(width) * size_t(height));
        legal.resize(cells.size());
        for (int y = 0; y < height; y++) {
            std::getline(file, line);
            for (int x = 0; x < width; x++) {
                char byte = line[size_t(x)];
                cells[number(x, y)] = byte == '.' || byte == 'G' || byte == 'S';
            }
        }
        for (int y = 0; y < height; y++)
            for (int x = 0; x < width; x++)
                for (int d = 0; d < 8; d++) legal[number(x, y)] |= uint8_t(is_legal(x, y, d) << d);
    }
    size_t number(int x, int y) const { return size_t(y) * size_t(width) + size_t(x); }
    bool is_free(int x, int y) const { return x >= 0 && y >= 0 && x < width && y < height && cells[number(x, y)]; }
    bool is_legal(int x, int y, int d) const {
        if (!is_free(x, y) || !is_free(x + DX[d], y + DY[d])) return false;
        return !(d & 1) || (is_free(x + DX[d], y) && is_free(x, y + DY[d]));
    }
};

struct Query {
    int start_x, start_y, goal_x, goal_y;
    double length;
};

static std::vector<Query> read_scenario(const char *name) {
    std::ifstream file(name);
    std::string line, bucket, map;
    std::vector<Query> queries;
    std::getline(file, line);
    while (std::getline(file, line)) {
        std::istringstream fields(line);
        int width, height;
        Query it;
        fields >> bucket >> map >> width >> height >> it.start_x >> it.start_y >> it.goal_x >> it.goal_y >> it.length;
        if (fields) queries.push_back(it);
    }
    return queries;
}

// The processor time of the process, in seconds.
static double now() {
    timespec time;
    clock_gettime(CLOCK_PROCESS_CPUTIME_ID, &time);
    return double(time.tv_sec) + double(time.tv_nsec) * 1e-9;
}

static double octile(int columns, int rows) {
    int one = std::abs(columns), other = std::abs(rows), less = std::min(one, other);
    return std::max(one, other) - less + less * SQRT2;
}

// Asks `length_of` for each query (the length found, below 0 where there is none). Prints a line of JSON; or,
// where `timed` stands behind the names of the files, the walks as bench/contest reads them, each with its
// nanoseconds, in which `path_of`, which puts the cells from start to goal, is counted too.
template <class F, class G>
static void measure(double began, char **words, const Map &map, const std::vector<Query> &queries, F length_of, G path_of) {
    double prepared = now() - began, sum = 0;
    bool is_timed = words[3] && std::string(words[3]) == "timed";
    size_t wrong = 0;
    std::vector<uint32_t> cells;
    if (is_timed) printf("prepared %.0f\n", prepared * 1e9);
    for (const Query &it : queries) {
        cells.clear();
        double before = now(), length = length_of(it);
        if (is_timed && length >= 0) path_of(it, cells);
        double spent = now() - before;
        sum += spent;
        wrong += std::fabs(length - it.length) > 1e-6 * (1 + it.length);
        if (!is_timed) continue;
        for (uint32_t cell : cells) printf("%d,%d ", int(cell) % map.width, int(cell) / map.width);
        printf("%s%.0f\n", length < 0 ? "none " : "", spent * 1e9);
    }
    if (is_timed) return;
    printf("{\"queries\": %zu, \"prepared\": %.6f, \"mean\": %.9f, \"wrong\": %zu}\n", queries.size(), prepared,
           queries.empty() ? 0 : sum / double(queries.size()), wrong);
}
