// Searches as a reader of the published papers writes them, for the rule `none`. Part of reference.cpp:
// `by=textbook`.
//
// engine=jps, block, plus: jump point search cell by cell (Harabor and Grastien 2011, 2012), by words of 64
// bits, and by tables (both 2014), the latter with the stop at the goal's row or column whether the goal is
// in sight from there or not (Rabin 2015). One node for each cell of the map, costs as sums of doubles, a
// binary heap of cells that knows their places, and of equal sums the greater cost first. It is there to be
// compared with, and nothing of it is tuned.
//
// engine=plain: A* with buckets in place of a heap (Dial 1969), which is what is fastest for it.
#pragma once

namespace textbook {

struct Node {
    double cost, sum;
    u32 parent, search, place;           // `search` tells whose values these are; `place` is that in the heap
    u8 arrival, closed;
};

// A binary heap of cells by their nodes' sums.
struct Heap {
    std::vector<Node> &nodes;
    std::vector<u32> cells;

    explicit Heap(std::vector<Node> &of) : nodes(of) {}
    bool before(u32 one, u32 other) const {
        const Node &a = nodes[one], &b = nodes[other];
        return a.sum < b.sum || (a.sum == b.sum && a.cost > b.cost);
    }
    void put(size_t place, u32 cell) {
        cells[place] = cell;
        nodes[cell].place = u32(place);
    }
    void up(size_t place) {
        u32 cell = cells[place];
        for (; place && before(cell, cells[(place - 1) / 2]); place = (place - 1) / 2) put(place, cells[(place - 1) / 2]);
        put(place, cell);
    }
    void push(u32 cell) {
        cells.push_back(cell);
        up(cells.size() - 1);
    }
    u32 pop() {
        u32 first = cells[0], last = cells.back();
        cells.pop_back();
        size_t place = 0, count = cells.size();
        if (!count) return first;
        for (size_t child = 1; child < count; child = 2 * place + 1) {
            if (child + 1 < count && before(cells[child + 1], cells[child])) child++;
            if (!before(cells[child], last)) break;
            put(place, cells[child]);
            place = child;
        }
        put(place, last);
        return first;
    }
};

static int sign(int value) { return (value > 0) - (value < 0); }

static double octile(int columns, int rows) {
    int less = std::min(std::abs(columns), std::abs(rows)), more = std::max(std::abs(columns), std::abs(rows));
    return more - less + less * SQRT2;
}

// How far the goal is ahead on this line, 0 where it is not.
static int goal_ahead(int x, int y, int d, Goal goal) {
    int columns = goal.x - x, rows = goal.y - y;
    return sign(columns) == DX[d] && sign(rows) == DY[d] ? std::max(std::abs(columns), std::abs(rows)) : 0;
}

// `jump` of these three: how many moves lead from a cell in direction d to the next jump point, 0 where none
// is.
struct ByCell {
    const Grid &grid;
    explicit ByCell(const Grid &on) : grid(on) {}

    int straight(const u8 *at, ptrdiff_t ahead, ptrdiff_t side, const u8 *goal) const {
        for (int moves = 1;; moves++) {
            at += ahead;
            if (!*at) return 0;
            if (at == goal) return moves;
            if ((at[side] && !at[side - ahead]) || (at[-side] && !at[-side - ahead])) return moves;
        }
    }
    int jump(int x, int y, int d, Goal to) const {
        const u8 *at = grid.cell(x, y), *goal = grid.cell(to.x, to.y);
        ptrdiff_t across = DX[d], down = DY[d] * grid.stride;
        if (!(d & 1)) return straight(at, across + down, across ? grid.stride : 1, goal);
        for (int moves = 1;; moves++) {
            if (!at[across] || !at[down] || !at[across + down]) return 0;
            at += across + down;
            if (at == goal || straight(at, across, grid.stride, goal) || straight(at, down, 1, goal)) return moves;
        }
    }
};

struct ByBlock {
    const Grid &grid;
    explicit ByBlock(const Grid &on) : grid(on) {}

    // The same along a line of bits, from the bit of a cell on; the goal is so many moves ahead.
    static int forward(const Bits &bits, int line, int bit, int goal) {
        for (int passed = 0;;) {
            const u8 *at = bits.line(line) + ((bit + passed) >> 3);
            int shift = (bit + passed) & 7;
            u64 middle = word_at(at) >> shift, left = word_at(at - bits.stride) >> shift;
            u64 right = word_at(at + bits.stride) >> shift;
            u64 stops = (~middle | (left & ~(left << 1)) | (right & ~(right << 1))) & (~0ull >> shift) & ~1ull;
            if (stops) return stop(passed + __builtin_ctzll(stops), middle >> __builtin_ctzll(stops) & 1, goal);
            passed += 63 - shift;
        }
    }
    static int back(const Bits &bits, int line, int bit, int goal) {
        for (int passed = 0;;) {
            const u8 *at = bits.line(line) + ((bit - passed) >> 3) - 7;
            int shift = 7 - ((bit - passed) & 7);
            u64 middle = word_at(at) << shift, left = word_at(at - bits.stride) << shift;
            u64 right = word_at(at + bits.stride) << shift;
            u64 stops = (~middle | (left & ~(left >> 1)) | (right & ~(right >> 1))) & (~0ull << shift) & ~(1ull << 63);
            if (stops) return stop(passed + __builtin_clzll(stops), middle << __builtin_clzll(stops) >> 63, goal);
            passed += 63 - shift;
        }
    }
    static int stop(int moves, bool is_free, int goal) {
        if (goal && (goal < moves || (goal == moves && is_free))) return goal;
        return is_free ? moves : 0;
    }
    int straight(int x, int y, int d, Goal goal) const {
        int ahead = goal_ahead(x, y, d, goal);
        switch (d) {
        case E: return forward(grid.rows, y, x + 1, ahead);
        case W: return back(grid.rows, y, x + 1, ahead);
        case S: return forward(grid.columns, x, y + 1, ahead);
        default: return back(grid.columns, x, y + 1, ahead);
        }
    }
    int jump(int x, int y, int d, Goal goal) const {
        if (!(d & 1)) return straight(x, y, d, goal);
        for (int moves = 1;; moves++) {
            if (!grid.is_free(x + DX[d], y) || !grid.is_free(x, y + DY[d])) return 0;
            x += DX[d];
            y += DY[d];
            if (!grid.is_free(x, y)) return 0;
            if (x == goal.x && y == goal.y) return moves;
            if (straight(x, y, (d + 1) & 7, goal) || straight(x, y, d - 1, goal)) return moves;
        }
    }
};

struct ByTable {
    const Grid &grid;
    Tables tables;
    explicit ByTable(const Grid &on) : grid(on), tables(on) {}

    int jump(int x, int y, int d, Goal goal) const {
        int run = tables.at(x, y)[d], columns = (goal.x - x) * DX[d], rows = (goal.y - y) * DY[d];
        if (d & 1) {
            int near = std::min(columns, rows);
            if (near > 0 && near <= std::abs(run)) return near;
        } else {
            int ahead = goal_ahead(x, y, d, goal);
            if (ahead && ahead <= std::abs(run)) return ahead;
        }
        return std::max(run, 0);
    }
};

template <class Jumps> struct Search : Layer {
    Grid grid;
    Jumps jumps;
    std::vector<Node> nodes;
    Heap heap;
    u32 search = 0;

    Search(const Map &map, Ground layer)
        : grid(map, layer), jumps(grid), nodes(size_t(map.width) * size_t(map.height)), heap(nodes) {}

    void query(int start_x, int start_y, int goal_x, int goal_y, Answer &answer, bool) override {
        const u32 width = u32(grid.width), goal = u32(goal_y) * width + u32(goal_x);
        const Goal to{goal_x, goal_y};
        search++;
        heap.cells.clear();
        reach(start_x, start_y, 0, NIL, START, to);
        while (!heap.cells.empty()) {
            u32 cell = heap.pop();
            Node &node = nodes[cell];
            node.closed = 1;
            answer.taken++;
            if (cell == goal) return finish(cell, answer);
            int x = int(cell % width), y = int(cell / width);
            for (u32 left = ALLOWED[around(grid, x, y)][node.arrival]; left; left &= left - 1) {
                int d = __builtin_ctz(left), moves = jumps.jump(x, y, d, to);
                if (!moves) continue;
                reach(x + DX[d] * moves, y + DY[d] * moves, node.cost + moves * (d & 1 ? SQRT2 : 1), cell, d, to);
            }
        }
    }
    void reach(int x, int y, double cost, u32 parent, int arrival, Goal goal) {
        u32 cell = u32(y) * u32(grid.width) + u32(x);
        Node &node = nodes[cell];
        bool is_known = node.search == search;
        if (is_known && (node.closed || cost >= node.cost)) return;
        node = Node{cost, cost + octile(goal.x - x, goal.y - y), parent, search, node.place, u8(arrival), 0};
        if (is_known) heap.up(node.place);
        else heap.push(cell);
    }
    void finish(u32 cell, Answer &answer) {
        answer.found = true;
        for (; cell != NIL; cell = nodes[cell].parent) {
            int x = int(cell) % grid.width, y = int(cell) / grid.width;
            if (!answer.points.empty()) {
                auto [from_x, from_y] = answer.points.back();
                u32 moves = u32(std::max(std::abs(from_x - x), std::abs(from_y - y)));
                (from_x != x && from_y != y ? answer.diagonal : answer.straight) += moves;
            }
            answer.points.emplace_back(x, y);
        }
        std::reverse(answer.points.begin(), answer.points.end());
    }
};

// A* by buckets. A sum is a number of fixed point, whose order is right for walks below 2^17 moves; a bucket
// has the sums of an eighth, in no order. So a cell may be taken before its cost is least, and is then taken
// again; and when the goal is taken, what is less in its bucket is taken before the search ends.
struct BucketSearch : Layer {
    static constexpr u64 ONE = 1ull << 32, ROOT = 6074001000ull;   // 1 and the square root of 2
    static constexpr int FINE = 29;
    struct Node {
        u64 cost;
        u32 search;
        u8 arrival, closed;
    };
    Grid grid;
    ptrdiff_t ahead[8];
    u8 useful[512][9];                   // the moves that the parent has not offered already
    std::vector<Node> nodes;             // with a border, as the grid's bytes
    std::vector<std::vector<u32>> buckets;
    size_t base = 0, now = 0, last = 0;
    u32 search = 0;

    BucketSearch(const Map &map, Ground layer)
        : grid(map, layer), nodes(size_t(grid.stride) * size_t(map.height + 2)), buckets(64) {
        for (int d = 0; d < 8; d++) ahead[d] = DX[d] + DY[d] * grid.stride;
        for (u32 cells = 0; cells < 512; cells++) {
            for (int d = 0; d < 8; d++) {
                int kept = 1 << d | 1 << ((d + 1) & 7) | 1 << ((d + 7) & 7);
                kept |= d & 1 ? 1 << ((d + 2) & 7) | 1 << ((d + 6) & 7) : forced(cells, d, NONE);
                useful[cells][d] = u8(kept & LEGAL[cells]);
            }
            useful[cells][START] = LEGAL[cells];
        }
    }
    INLINE Node &node_at(int x, int y) { return nodes[size_t((y + 1) * grid.stride + x + 1)]; }
    INLINE void put(int x, int y, u64 cost, Goal goal) {
        u32 columns = u32(std::abs(goal.x - x)), rows = u32(std::abs(goal.y - y));
        u32 less = std::min(columns, rows), more = std::max(columns, rows);
        size_t place = size_t((cost + (more - less) * ONE + less * ROOT) >> FINE) - base;
        if (UNLIKELY(place >= buckets.size())) buckets.resize(2 * place);
        buckets[place].push_back(u32(y) << 16 | u32(x));
        last = std::max(last, place);
    }
    void begin(int x, int y, Goal goal) {
        for (; now <= last; now++) buckets[now].clear();
        u32 columns = u32(std::abs(goal.x - x)), rows = u32(std::abs(goal.y - y)), less = std::min(columns, rows);
        base = size_t(((std::max(columns, rows) - less) * ONE + less * ROOT) >> FINE);
        now = last = 0;
        search++;
        node_at(x, y) = Node{0, search, START, 0};
        put(x, y, 0, goal);
    }
    void query(int start_x, int start_y, int goal_x, int goal_y, Answer &answer, bool) override {
        const Goal goal{goal_x, goal_y};
        begin(start_x, start_y, goal);
        const Node &end = node_at(goal_x, goal_y);
        bool is_reached = false;
        for (; now <= last && !is_reached; now++) {
            while (!buckets[now].empty()) {
                u32 item = buckets[now].back();
                buckets[now].pop_back();
                int x = int(item & 0xFFFF), y = int(item >> 16);
                Node &node = node_at(x, y);
                if (node.closed) continue;
                if (UNLIKELY(is_reached) && node.cost >= end.cost) continue;
                node.closed = 1;
                answer.taken++;
                if (UNLIKELY(&node == &end)) is_reached = true;
                else expand(x, y, node, goal);
            }
        }
        now--;
        if (is_reached) finish(goal_x, goal_y, answer);
    }
    INLINE void expand(int x, int y, const Node &node, Goal goal) {
        for (u32 left = useful[around(grid, x, y)][node.arrival]; left; left &= left - 1) {
            int d = __builtin_ctz(left);
            u64 cost = node.cost + (d & 1 ? ROOT : ONE);
            Node &next = const_cast<Node *>(&node)[ahead[d]];
            if (next.search == search && next.cost <= cost) continue;
            next = Node{cost, search, u8(d), 0};
            put(x + DX[d], y + DY[d], cost, goal);
        }
    }
    void finish(int x, int y, Answer &answer) {
        answer.found = true;
        if (node_at(x, y).cost >> 49) fail("a walk beyond the exact range");
        for (int before = -1;;) {
            int arrival = node_at(x, y).arrival;
            if (arrival != before) answer.points.emplace_back(x, y);
            if (arrival == START) break;
            (arrival & 1 ? answer.diagonal : answer.straight)++;
            before = arrival;
            x -= DX[arrival];
            y -= DY[arrival];
        }
        std::reverse(answer.points.begin(), answer.points.end());
    }
};

}  // namespace textbook
