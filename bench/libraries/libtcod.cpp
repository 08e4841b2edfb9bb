// libtcod: TCOD_path with a diagonal cost of 1.41421356; its callback forbids that a corner is cut.
#include "common.hpp"

#include <libtcod/path.h>

static float is_walkable(int from_x, int from_y, int x, int y, void *data) {
    const Map &map = *static_cast<const Map *>(data);
    if (!map.is_free(x, y)) return 0;
    return from_x == x || from_y == y || (map.is_free(x, from_y) && map.is_free(from_x, y));
}

int main(int, char **words) {
    double began = now();
    Map map(words[1]);
    auto queries = read_scenario(words[2]);
    TCOD_path_t path = TCOD_path_new_using_function(map.width, map.height, is_walkable, &map, float(SQRT2));
    auto length_of = [&](const Query &it) -> double {
        if (!TCOD_path_compute(path, it.start_x, it.start_y, it.goal_x, it.goal_y)) return -1;
        int count = TCOD_path_size(path), x = it.start_x, y = it.start_y;
        double length = 0;
        for (int place = 0; place < count; place++) {
            int next_x, next_y;
            TCOD_path_get(path, place, &next_x, &next_y);
            length += next_x != x && next_y != y ? SQRT2 : 1;
            x = next_x;
            y = next_y;
        }
        return length;
    };
    measure(began, words, map, queries, length_of, [&](const Query &it, std::vector<uint32_t> &cells) {
        cells.push_back(uint32_t(map.number(it.start_x, it.start_y)));
        for (int place = 0, count = TCOD_path_size(path); place < count; place++) {
            int x, y;
            TCOD_path_get(path, place, &x, &y);
            cells.push_back(uint32_t(map.number(x, y)));
        }
    });
}
