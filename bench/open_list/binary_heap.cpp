// The turns of crates/open_list_bench with an indexed binary heap: the heap holds node numbers, and
// each node knows its place in it, as a search needs to lower a node. How to build and run it
// stands in docs/LAB.md.
#include <cstdint>
#include <cstdio>
#include <cstdlib>
#include <utility>
#include <vector>

constexpr uint32_t NODES = 1'000'000;
constexpr uint32_t CLOSED = UINT32_MAX;

struct Node {
    uint32_t sum, tie, cost, estimate, state, parent, turn;
    bool before(const Node& other) const {
        return sum < other.sum || (sum == other.sum && tie < other.tie);
    }
};

struct Pool {
    std::vector<Node> nodes;
    std::vector<uint32_t> place;
    std::vector<uint32_t> heap;

    void clear() { nodes.clear(); place.clear(); heap.clear(); }
    bool is_open(uint32_t id) const { return place[id] != CLOSED; }

    void up(uint32_t at) {
        uint32_t id = heap[at];
        Node node = nodes[id];
        while (at > 0) {
            uint32_t above = (at - 1) / 2;
            if (!node.before(nodes[heap[above]])) break;
            heap[at] = heap[above];
            place[heap[at]] = at;
            at = above;
        }
        heap[at] = id;
        place[id] = at;
    }

    void down(uint32_t at) {
        uint32_t id = heap[at];
        Node node = nodes[id];
        uint32_t n = heap.size();
        for (;;) {
            uint32_t child = 2 * at + 1;
            if (child >= n) break;
            if (child + 1 < n && nodes[heap[child + 1]].before(nodes[heap[child]])) child++;
            if (!nodes[heap[child]].before(node)) break;
            heap[at] = heap[child];
            place[heap[at]] = at;
            at = child;
        }
        heap[at] = id;
        place[id] = at;
    }

    uint32_t add(const Node& node) {
        uint32_t id = nodes.size();
        nodes.push_back(node);
        place.push_back(heap.size());
        heap.push_back(id);
        up(heap.size() - 1);
        return id;
    }

    void lower(uint32_t id, const Node& node) {
        nodes[id] = node;
        up(place[id]);
    }

    bool pop(uint32_t& first) {
        if (heap.empty()) return false;
        first = heap[0];
        place[first] = CLOSED;
        heap[0] = heap.back();
        heap.pop_back();
        if (!heap.empty()) down(0);
        return true;
    }
};

static uint32_t next_word(uint64_t& state) {
    state = state * 6364136223846793005ull + 1442695040888963407ull;
    return uint32_t(state >> 33);
}

static void offer(Pool& pool, const Node& from, uint32_t turn, uint64_t& state) {
    uint32_t word = next_word(state);
    uint32_t len = pool.nodes.size();
    Node node{from.sum + word % 1000, turn, word, 0, len, from.state, turn};
    if (word % 4 == 0 && len > 0) {
        uint32_t id = next_word(state) % len;
        if (pool.is_open(id) && !pool.nodes[id].before(node)) pool.lower(id, node);
        return;
    }
    if (len < NODES) pool.add(node);
}

static uint64_t one_round(Pool& pool, uint32_t offers, uint64_t& state) {
    pool.clear();
    pool.add(Node{});
    uint64_t total = 0;
    for (uint32_t turn = 0; turn < NODES; turn++) {
        uint32_t id;
        if (!pool.pop(id)) break;
        Node node = pool.nodes[id];
        total = total * 31 + id;
        for (uint32_t k = 0; k < offers; k++) offer(pool, node, 8 * turn + k, state);
    }
    return total;
}

int main(int argc, char** argv) {
    uint32_t count = argc > 1 ? uint32_t(atoi(argv[1])) : 1;
    uint32_t offers = argc > 2 ? uint32_t(atoi(argv[2])) : 8;
    Pool pool;
    uint64_t state = 1, total = 0;
    for (uint32_t k = 0; k < count; k++) total += one_round(pool, offers, state);
    printf("%llu\n", (unsigned long long)total);
}
