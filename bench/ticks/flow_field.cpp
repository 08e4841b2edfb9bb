// A flow field as games make it: the least costs from a goal to all cells by buckets one wide, then for each cell the
// direction in which a least walk to the goal goes on. It prints what `jps serve` answers to `field X Y`, on land and
// under the corner rule `none`.
//
//     flow_field MAP X Y COUNT      makes the field so many times, and prints each
//
// A move costs at least 1, so what lies in a bucket costs no less later. Costs are doubles: two that are equal differ
// by rounding alone, far less than any two that are not.

#include <cmath>
#include <cstdint>
#include <cstdio>
#include <cstdlib>
#include <fstream>
#include <string>
#include <vector>

namespace {

constexpr double DIAGONAL = 1.4142135623730951, NEAR = 1e-7;

class Field {
public:
    explicit Field(const char *path) {
        std::ifstream file(path);
        std::string word;
        file >> word >> word >> word >> height >> word >> width >> word;
        wide = width + 2;
        free.assign(size_t(wide) * (height + 2), 0);
        for (int y = 0; y < height; y++) {
            file >> word;
            for (int x = 0; x < width; x++) free[at(x, y)] = word[x] == '.' || word[x] == 'G' || word[x] == 'S';
        }
        if (!file) std::fprintf(stderr, "flow_field: %s is no map\n", path), std::exit(1);
        const int there[8] = {-wide, -wide + 1, 1, wide + 1, wide, wide - 1, -1, -wide - 1};
        for (int d = 0; d < 8; d++) steps[d] = there[d];
    }

    size_t at(int x, int y) const { return size_t(y + 1) * wide + x + 1; }

    // Calls with each direction of a legal move from the cell, in the order of their numbers, until that says so.
    template <typename Call> void moves(size_t cell, Call call) const {
        const bool north = free[cell - wide], east = free[cell + 1], south = free[cell + wide], west = free[cell - 1];
        const bool legal[8] = {north, north && east && free[cell - wide + 1],
                               east, south && east && free[cell + wide + 1],
                               south, south && west && free[cell + wide - 1],
                               west, north && west && free[cell - wide - 1]};
        for (int d = 0; d < 8; d++)
            if (legal[d] && call(d)) return;
    }

    void make(size_t goal) {
        costs.assign(free.size(), INFINITY);
        done.assign(free.size(), 0);
        costs[goal] = 0;
        buckets[0].push_back(uint32_t(goal));
        for (size_t k = 0, empty = 0; empty < 3; k++) {
            auto &now = buckets[k % 3];
            empty = now.empty() ? empty + 1 : 0;
            for (size_t i = 0; i < now.size(); i++) settle(now[i]);
            now.clear();
        }
    }

    // The letters of the field, a line for each row.
    void write(size_t goal, std::string &text) const {
        text = "field " + std::to_string(width) + " " + std::to_string(height) + "\n";
        for (int y = 0; y < height; y++) {
            for (int x = 0; x < width; x++) text += at(x, y) == goal ? '*' : letter(at(x, y));
            text += '\n';
        }
    }

private:
    void settle(size_t cell) {
        if (done[cell]) return;
        done[cell] = 1;
        const double cost = costs[cell];
        moves(cell, [&](int d) {
            const size_t to = cell + steps[d];
            const double sum = cost + (d % 2 ? DIAGONAL : 1.0);
            if (sum + NEAR < costs[to]) costs[to] = sum, buckets[size_t(sum) % 3].push_back(uint32_t(to));
            return false;
        });
    }

    char letter(size_t cell) const {
        char found = '-';
        if (!free[cell] || !done[cell]) return found;
        moves(cell, [&](int d) {
            const double before = costs[cell + steps[d]] + (d % 2 ? DIAGONAL : 1.0);
            if (std::fabs(before - costs[cell]) > NEAR) return false;
            found = char('0' + d);
            return true;
        });
        return found;
    }

    int width = 0, height = 0, wide = 0;
    ptrdiff_t steps[8];
    std::vector<uint8_t> free, done;
    std::vector<double> costs;
    std::vector<uint32_t> buckets[3];
};

}  // namespace

int main(int count, char **words) {
    if (count != 5) return std::fprintf(stderr, "usage: flow_field MAP X Y COUNT\n"), 2;
    Field field(words[1]);
    const size_t goal = field.at(std::atoi(words[2]), std::atoi(words[3]));
    std::string text;
    for (int left = std::atoi(words[4]); left > 0; left--) {
        field.make(goal);
        field.write(goal, text);
        std::fwrite(text.data(), 1, text.size(), stdout);
    }
}
