// The reference: the engines `plain`, `jps`, `block` and `plus` of this project in one file of C++17.
//
//   g++ -std=c++17 -O3 -march=x86-64-v2 -o reference reference.cpp
//
//   reference query MAP SX SY GX GY [SETTINGS]     what `jps query` prints
//   reference solve MAP SCRIPT [SETTINGS]          what `jps solve` prints
//   reference scen MAP SCEN [SETTINGS]             what `jps scen` prints
//   reference timed MAP SCEN [SETTINGS]            the walks of a scenario, timed, for `bench/contest`
//   reference tables MAP [SETTINGS]                what `jps tables` prints
//   reference scenario MAP COUNT SEED NAME         a scenario with exact lengths, spread over all lengths
//
// Settings: engine=plain|jps|block|plus, states=arrival|cell, rule=none|one|both,
// show=points|cells|trace|taken as the program has them (docs/RULES.md, docs/FORMATS.md); open=heap|pairing:
// which open list the jump engines use; and by=textbook: the searches of textbook.hpp. It trusts its inputs:
// what breaks a form ends it with a line, not with the program's own fault.
//
// It is there to be compared with. So it chooses freely what is fast in C++: a heap with four children for
// each place, in which a state may stand more than once, sums as doubles, an index by cell. (For `plain`
// buckets are faster, which `by=textbook` has, but take equal sums in another order.) `open=pairing` is the
// kind of open list that the program has (a pairing heap, in which a state stands once and is moved), so that
// the price of that list can be told from the price of the language.
//
// Exactness. A sum is a pair (a, b) with the value a + b * sqrt 2, and is compared as the double a + b *
// SQRT2. With both parts at most M the double is wrong by at most 5.25 * M * 2^-53, and two different pairs
// differ by at least 1 / (2.4143 * M). So the doubles are in the order of the values, and equal ones are
// equal pairs, as long as M <= 2^24. Each sum that enters the open list is looked at for that bound, and
// beyond it the program ends.

#include <algorithm>
#include <cstdint>
#include <cstdio>
#include <cstdlib>
#include <cstring>
#include <memory>
#include <string>
#include <utility>
#include <vector>

#include <fcntl.h>
#include <sys/mman.h>
#include <sys/stat.h>
#include <time.h>
#include <unistd.h>

#define LIKELY(x) __builtin_expect(!!(x), 1)
#define UNLIKELY(x) __builtin_expect(!!(x), 0)
#define INLINE inline __attribute__((always_inline))

using u8 = uint8_t;
using u16 = uint16_t;
using u32 = uint32_t;
using u64 = uint64_t;
using i16 = int16_t;
using i64 = int64_t;
using i128 = __int128;
using u128 = unsigned __int128;
using std::ptrdiff_t;
using std::size_t;

static const double SQRT2 = 1.41421356237309504880;
static const u32 MOST = 1u << 24;        // the largest part of a sum that is compared rightly
static const u32 NIL = ~0u;              // no node

enum Direction { N, NE, E, SE, S, SW, W, NW, START };
static const int DX[8] = {0, 1, 1, 1, 0, -1, -1, -1};
static const int DY[8] = {-1, -1, 0, 1, 1, 1, 0, -1};
static const char *const NAMES[9] = {"N", "NE", "E", "SE", "S", "SW", "W", "NW", "-"};

enum Engine { PLAIN, JPS, BLOCK, PLUS };
enum Rule { NONE, ONE, BOTH };           // how many cells beside a diagonal move may be blocked
enum Ground : u8 { BLOCKED, LAND, WATER, UNKNOWN };

[[noreturn]] static void fail(const char *what, const char *more = "") {
    fprintf(stderr, "reference: %s%s\n", what, more);
    exit(3);
}

// Zeroed memory that the system hands out page by page, when a page is first touched.
template <class T> struct Zeroed {
    T *at = nullptr;
    size_t bytes = 0;
    Zeroed() = default;
    Zeroed(const Zeroed &) = delete;
    ~Zeroed() { drop(); }
    void take(size_t count) {
        drop();
        bytes = count * sizeof(T);
        void *memory = mmap(nullptr, bytes, PROT_READ | PROT_WRITE, MAP_PRIVATE | MAP_ANONYMOUS, -1, 0);
        if (memory == MAP_FAILED) fail("memory");
        at = static_cast<T *>(memory);
    }
    void drop() {
        if (at) munmap(at, bytes);
        at = nullptr;
    }
};

// ---------------------------------------------------------------- files

static std::string read_file(const char *name) {
    int file = open(name, O_RDONLY);
    struct stat told;
    if (file < 0 || fstat(file, &told)) fail("read ", name);
    std::string text(size_t(told.st_size), '\0');
    size_t length = 0;
    while (length < text.size()) {
        ssize_t count = read(file, &text[length], text.size() - length);
        if (count <= 0) fail("read ", name);
        length += size_t(count);
    }
    close(file);
    return text;
}

static Ground ground_of(char byte) {
    if (byte == '.' || byte == 'G' || byte == 'S') return LAND;
    if (byte == 'W') return WATER;
    return byte == '@' || byte == 'O' || byte == 'T' ? BLOCKED : UNKNOWN;
}

struct Map {
    int width = 0, height = 0;
    std::vector<u8> grounds;
    bool has(i64 x, i64 y) const { return x >= 0 && y >= 0 && x < width && y < height; }
    u8 &at(i64 x, i64 y) { return grounds[size_t(y) * size_t(width) + size_t(x)]; }
    u8 at(i64 x, i64 y) const { return grounds[size_t(y) * size_t(width) + size_t(x)]; }
};

static Map parse_map(const std::string &text) {
    Map map;
    int head = 0;
    if (sscanf(text.c_str(), "type octile height %d width %d map%n", &map.height, &map.width, &head) != 2 || !head)
        fail("map head");
    if (map.width < 1 || map.height < 1 || map.width > 4096 || map.height > 4096) fail("map size");
    Ground grounds[256];
    for (int byte = 0; byte < 256; byte++) grounds[byte] = ground_of(char(byte));
    map.grounds.resize(size_t(map.width) * size_t(map.height));
    size_t from = text.find('\n', size_t(head)) + 1, cell = 0;
    u8 worst = 0;
    for (int y = 0; y < map.height; y++) {
        if (from + size_t(map.width) > text.size()) fail("map rows");
        for (int x = 0; x < map.width; x++) {
            u8 ground = grounds[u8(text[from + size_t(x)])];
            map.grounds[cell++] = ground;
            worst = std::max(worst, ground);
        }
        from += size_t(map.width);
        if (from < text.size() && text[from] == '\r') from++;
        if (from < text.size() && text[from++] != '\n') fail("map rows");
    }
    if (worst == UNKNOWN) fail("map bytes");
    return map;
}

// The lines of a text as fields between blanks.
template <class F> static void each_line(const std::string &text, F work) {
    std::vector<std::string> fields;
    for (size_t from = 0; from < text.size();) {
        size_t end = std::min(text.find('\n', from), text.size());
        fields.clear();
        for (size_t at = from; at < end;) {
            size_t stop = at;
            while (stop < end && text[stop] != ' ' && text[stop] != '\t' && text[stop] != '\r') stop++;
            if (stop > at) fields.emplace_back(text, at, stop - at);
            at = stop + 1;
        }
        work(fields);
        from = end + 1;
    }
}

struct Entry {
    i64 width, height, start_x, start_y, goal_x, goal_y;
    u64 digits;                          // the listed length without its point
    int places;                          // how many of the digits stand behind the point
};

static void take_length(const std::string &field, Entry &entry) {
    bool behind = false;
    entry.digits = 0;
    entry.places = 0;
    for (char byte : field) {
        if (byte == '.') { behind = true; continue; }
        if (byte < '0' || byte > '9') fail("scenario length");
        if (behind && entry.places == 10) continue;
        entry.digits = entry.digits * 10 + u64(byte - '0');
        entry.places += behind;
    }
}

static std::vector<Entry> parse_scenario(const std::string &text) {
    std::vector<Entry> entries;
    bool first = true;
    each_line(text, [&](const std::vector<std::string> &fields) {
        if (first) {
            if (fields.empty() || fields[0] != "version") fail("scenario head");
            first = false;
        } else if (!fields.empty()) {
            if (fields.size() < 9) fail("scenario entry");
            const std::string *last = &fields.back();        // the map's name may have blanks: count from behind
            Entry entry;
            i64 *const numbers[6] = {&entry.width,   &entry.height, &entry.start_x,
                                     &entry.start_y, &entry.goal_x, &entry.goal_y};
            for (int place = 0; place < 6; place++) *numbers[place] = atoll(last[place - 6].c_str());
            take_length(*last, entry);
            entries.push_back(entry);
        }
    });
    return entries;
}

// ---------------------------------------------------------------- the verdict on a listed length

enum Verdict { AGREE, NEAR, OFF };

static Verdict verdict_of(const Entry &entry, u32 straight, u32 diagonal) {
    i128 ten = 1;
    for (int place = 0; place < entry.places; place++) ten *= 10;
    i128 rest = i128(entry.digits) - ten * straight, part = ten * diagonal, square = 2 * part * part;
    auto within = [&](i128 most) {                           // |rest - part * sqrt 2| <= most
        i128 low = rest - most, high = rest + most;
        return high >= 0 && square <= high * high && (low <= 0 || low * low <= square);
    };
    if (within(1)) return AGREE;
    return entry.places >= 2 && within(ten / 100) ? NEAR : OFF;
}

// The decimal with eight places that is nearest to straight + diagonal * sqrt 2.
static std::string decimal_of(u32 straight, u32 diagonal) {
    u128 square = u128(8) * diagonal * diagonal * 10000000000000000ull;     // of twice the diagonals' part, in 10^-8
    u64 root = u64(__builtin_sqrt(double(square)));
    while (u128(root) * root > square) root--;
    while (u128(root + 1) * (root + 1) <= square) root++;
    u64 value = (root + 1) / 2 + u64(straight) * 100000000ull;
    char text[40];
    unsigned long long whole = value / 100000000, rest = value % 100000000;
    snprintf(text, sizeof text, "%llu.%08llu", whole, rest);
    return text;
}

// ---------------------------------------------------------------- a grid

// Lines of bits, 1 for a free cell. Line `line` (from -1 to `lines`) has its cell `place` (from -1 to
// `length`) in bit place + 1; what lies outside the map is 0. Bits are read by eight bytes at a time from any
// byte on.
struct Bits {
    size_t stride = 0;                                       // bytes from one line to the next
    std::vector<u64> memory;
    u8 *first = nullptr;                                     // line -1
    void take(int lines, int length) {
        stride = (size_t(length) + 2 + 63) / 64 * 8;
        memory.assign(stride / 8 * (size_t(lines) + 2) + 4, 0);
        first = reinterpret_cast<u8 *>(memory.data() + 2);   // a word may begin before the first line
    }
    INLINE u8 *line(int number) { return first + size_t(number + 1) * stride; }
    INLINE const u8 *line(int number) const { return first + size_t(number + 1) * stride; }
    INLINE u32 get(int number, int place) const { return line(number)[(place + 1) >> 3] >> ((place + 1) & 7) & 1; }
    // Eight cells from `place` on, given as the bits of a byte.
    INLINE void put(int number, int place, u8 cells) {
        u8 *at = line(number) + ((place + 1) >> 3);
        u32 shifted = u32(cells) << ((place + 1) & 7);
        at[0] |= u8(shifted);
        at[1] |= u8(shifted >> 8);
    }
};

INLINE u64 word_at(const u8 *bytes) {
    u64 word;
    memcpy(&word, bytes, 8);
    return word;
}

// Row k of eight by eight bits becomes column k (Hacker's Delight, section 7-3).
INLINE u64 turned(u64 bits) {
    u64 swap = (bits ^ bits >> 7) & 0x00AA00AA00AA00AAull;
    bits ^= swap ^ swap << 7;
    swap = (bits ^ bits >> 14) & 0x0000CCCC0000CCCCull;
    bits ^= swap ^ swap << 14;
    swap = (bits ^ bits >> 28) & 0x00000000F0F0F0F0ull;
    return bits ^ swap ^ swap << 28;
}

// One layer of a map: a byte for each cell with a border of blocked ones, and bits by rows and by columns.
struct Grid {
    int width, height;
    ptrdiff_t stride;
    std::vector<u8> bytes;                                   // 1 for a free cell
    Bits rows, columns;

    Grid(const Map &map, Ground layer) : width(map.width), height(map.height), stride(map.width + 2) {
        bytes.assign(size_t(stride) * size_t(height + 2) + 8, 0);
        for (int y = 0; y < height; y++)
            for (int x = 0; x < width; x++) bytes[size_t((y + 1) * stride + x + 1)] = map.at(x, y) == layer;
        rows.take(height, width);
        columns.take(width, height);
        for (int y = 0; y < height; y += 8)
            for (int x = 0; x < width; x += 8) put_tile(x, y);
    }
    INLINE const u8 *cell(int x, int y) const { return &bytes[size_t((y + 1) * stride + x + 1)]; }
    INLINE bool is_free(int x, int y) const { return rows.get(y, x); }

    // Eight by eight cells from (x, y) on, into the bits of their rows and columns.
    void put_tile(int x, int y) {
        int down = std::min(8, height - y), right = std::min(8, width - x);
        u64 tile = 0;
        for (int row = 0; row < down; row++) {
            u64 packed = word_at(cell(x, y + row)) * 0x0102040810204080ull >> 56;
            tile |= (packed & ((1u << right) - 1)) << (8 * row);
        }
        for (int row = 0; row < down; row++) rows.put(y + row, x, u8(tile >> (8 * row)));
        tile = turned(tile);
        for (int column = 0; column < right; column++) columns.put(x + column, y, u8(tile >> (8 * column)));
    }
};

// The three by three cells around a cell: bit (dy + 1) * 3 + dx + 1 for the one that lies (dx, dy) away.
INLINE u32 around(const Grid &grid, int x, int y) {
    const u8 *middle = grid.rows.line(y) + (x >> 3);
    auto three = [&](const u8 *at) {
        u16 bits;
        memcpy(&bits, at, 2);
        return u32(bits >> (x & 7) & 7);
    };
    return three(middle - grid.rows.stride) | three(middle) << 3 | three(middle + grid.rows.stride) << 6;
}

// ---------------------------------------------------------------- the corner rule, told by what lies around
// a cell

// Sets of directions are bytes with bit d for direction d.
static u8 LEGAL[512];                    // the legal moves
static u8 ALLOWED[512][9];               // the directions in which a search goes on after an arrival
static u8 MARKED[512];                   // the arrivals after which a wall forces a turn here

static int direction_to(int dx, int dy) {
    for (int d = 0; d < 8; d++)
        if (DX[d] == dx && DY[d] == dy) return d;
    fail("direction");
}

// The directions that walls force after an arrival, legal or not (docs/RULES.md, "Pruning").
static u8 forced(u32 cells, int arrival, Rule rule) {
    auto is_blocked = [&](int dx, int dy) { return !(cells >> ((dy + 1) * 3 + dx + 1) & 1); };
    int dx = DX[arrival], dy = DY[arrival];
    int set = 0;
    if (arrival & 1) {
        if (rule != NONE && is_blocked(-dx, 0)) set |= 1 << direction_to(-dx, dy);
        if (rule != NONE && is_blocked(0, -dy)) set |= 1 << direction_to(dx, -dy);
        return u8(set);
    }
    for (int turn : {2, 6}) {
        int side = (arrival + turn) & 7, half = (arrival + (turn == 2 ? 1 : 7)) & 7;
        if (rule != NONE && is_blocked(DX[side], DY[side])) set |= 1 << half;
        if (rule == NONE && is_blocked(DX[side] - dx, DY[side] - dy)) set |= 1 << side | 1 << half;
    }
    return u8(set);
}

static void make_rule(Rule rule) {
    for (u32 cells = 0; cells < 512; cells++) {
        auto is_free = [&](int dx, int dy) { return int(cells >> ((dy + 1) * 3 + dx + 1) & 1); };
        int legal = 0;
        for (int d = 0; d < 8; d++) {
            int beside = d & 1 ? is_free(DX[d], 0) + is_free(0, DY[d]) : 2;
            if (is_free(0, 0) && is_free(DX[d], DY[d]) && beside + int(rule) >= 2) legal |= 1 << d;
        }
        LEGAL[cells] = u8(legal);
        ALLOWED[cells][START] = u8(legal);
        MARKED[cells] = 0;
        for (int d = 0; d < 8; d++) {
            int natural = d & 1 ? 1 << d | 1 << ((d + 1) & 7) | 1 << ((d + 7) & 7) : 1 << d;
            int turns = forced(cells, d, rule) & legal;
            ALLOWED[cells][d] = u8((natural & legal) | turns);
            if (turns) MARKED[cells] = u8(MARKED[cells] | 1 << d);
        }
    }
}

// ---------------------------------------------------------------- jumps

// A straight run is told by one number: where it meets a mark, the number of moves to the first one; else the
// number of moves of the whole run, below zero or zero. `with_goal` gives the first stop of it, 0 where there
// is none, for a goal that lies `to_goal` moves ahead on its line, or not ahead where that is not above 0.
INLINE int with_goal(int run, int to_goal) {
    if (to_goal > 0 && to_goal <= std::abs(run)) return to_goal;
    return run > 0 ? run : 0;
}
INLINE int moves_to_goal(int d, int x, int y, int goal_x, int goal_y) {
    switch (d) {
    case N: return goal_x == x ? y - goal_y : 0;
    case S: return goal_x == x ? goal_y - y : 0;
    case E: return goal_y == y ? goal_x - x : 0;
    default: return goal_y == y ? x - goal_x : 0;
    }
}
// A diagonal jump meets the goal's row and column once each, first at the lesser of the two distances. Is the
// goal on the run of a component there? `rest` is the distance in columns less that in rows, from where the
// jump began.
INLINE bool is_in_sight(int rest, int along_row, int along_column) {
    return rest >= 0 ? rest <= -along_row : -rest <= -along_column;
}

// Jumps cell by cell over bytes.
template <Rule RULE> struct CellJumps {
    const Grid &grid;
    explicit CellJumps(const Grid &on) : grid(on) {}

    static INLINE int straight(const u8 *at, ptrdiff_t ahead, ptrdiff_t side) {
        u8 left = at[side], right = at[-side];
        for (int moves = 1;; moves++) {
            at += ahead;
            if (!*at) return 1 - moves;
            u8 next_left = at[side], next_right = at[-side];
            if (RULE == NONE) {                              // a side that opens behind a wall
                if ((next_left > left) | (next_right > right)) return moves;
                left = next_left;
                right = next_right;
            } else if (RULE == BOTH || at[ahead]) {          // a wall beside, and a free cell beyond it
                if ((at[side + ahead] > next_left) | (at[ahead - side] > next_right)) return moves;
            }
        }
    }
    static INLINE bool is_legal(const u8 *at, ptrdiff_t across, ptrdiff_t down) {
        if (!at[across + down]) return false;
        return RULE == BOTH || (RULE == ONE ? at[across] | at[down] : at[across] & at[down]);
    }
    static INLINE bool is_marked(const u8 *at, ptrdiff_t across, ptrdiff_t down) {
        if (RULE == NONE) return false;
        return (!at[-across] && is_legal(at, -across, down)) || (!at[-down] && is_legal(at, across, -down));
    }
    INLINE int stop(int x, int y, int d, int goal_x, int goal_y) const {
        const u8 *at = grid.cell(x, y);
        ptrdiff_t across = DX[d], down = DY[d] * grid.stride;
        if (!(d & 1)) {
            int run = straight(at, across + down, across ? grid.stride : 1);
            return with_goal(run, moves_to_goal(d, x, y, goal_x, goal_y));
        }
        int columns = (goal_x - x) * DX[d], rows = (goal_y - y) * DY[d], near = std::min(columns, rows);
        for (int moves = 1;; moves++) {
            if (!is_legal(at, across, down)) return 0;
            at += across + down;
            if (is_marked(at, across, down)) return moves;
            int along_row = straight(at, across, grid.stride);
            if (along_row > 0) return moves;
            int along_column = straight(at, down, 1);
            if (along_column > 0) return moves;
            if (UNLIKELY(moves == near) && is_in_sight(columns - rows, along_row, along_column)) return moves;
        }
    }
    INLINE void prefetch(u32) const {}
};

// Jumps over bits, up to 64 cells of a row or column at a time.
template <Rule RULE> struct BlockJumps {
    const Grid &grid;
    explicit BlockJumps(const Grid &on) : grid(on) {}

    // The cells at which a run has to stop: blocked ones, and marked ones. `behind` of a word has each cell's
    // bit where the bit of the cell before it on the run was, `beyond` that of the next one. `seen` has a bit
    // for each cell of which all that is asked is in the words.
    template <class F, class G>
    static INLINE u64 stops(u64 middle, u64 left, u64 right, u64 seen, F behind, G beyond) {
        u64 marks;
        if (RULE == NONE) marks = (left & ~behind(left)) | (right & ~behind(right));
        else {
            marks = (~left & beyond(left)) | (~right & beyond(right));
            if (RULE == ONE) marks &= beyond(middle);
        }
        return (~middle | marks) & seen;
    }
    // The stops in the window of 64 cells from one cell on, that one left out, and the cells of the line
    // there. `told` is how many cells further on the window tells of. The next one begins with the last of
    // them, at which it looks back.
    static INLINE u64 window_ahead(const Bits &bits, int line, int bit, u64 &middle, int &told) {
        const u8 *at = bits.line(line) + (bit >> 3);
        int shift = bit & 7;
        told = RULE == NONE ? 63 - shift : 62 - shift;
        middle = word_at(at) >> shift;
        u64 left = word_at(at - bits.stride) >> shift, right = word_at(at + bits.stride) >> shift;
        return stops(middle, left, right, ~0ull >> (63 - told) & ~1ull, [](u64 word) { return word << 1; },
                     [](u64 word) { return word >> 1; });
    }
    static INLINE u64 window_back(const Bits &bits, int line, int bit, u64 &middle, int &told) {
        const u8 *at = bits.line(line) + (bit >> 3) - 7;
        int shift = 7 - (bit & 7);
        told = RULE == NONE ? 63 - shift : 62 - shift;
        middle = word_at(at) << shift;
        u64 left = word_at(at - bits.stride) << shift, right = word_at(at + bits.stride) << shift;
        return stops(middle, left, right, ~0ull << (63 - told) & ~(1ull << 63), [](u64 word) { return word >> 1; },
                     [](u64 word) { return word << 1; });
    }
    static INLINE int forward(const Bits &bits, int line, int place) {
        u64 middle;
        int told, passed = 0;
        u64 found = window_ahead(bits, line, place + 1, middle, told);
        while (UNLIKELY(!found)) {
            passed += told;
            found = window_ahead(bits, line, place + 1 + passed, middle, told);
        }
        int count = __builtin_ctzll(found);
        return middle >> count & 1 ? passed + count : 1 - passed - count;
    }
    static INLINE int back(const Bits &bits, int line, int place) {
        u64 middle;
        int told, passed = 0;
        u64 found = window_back(bits, line, place + 1, middle, told);
        while (UNLIKELY(!found)) {
            passed += told;
            found = window_back(bits, line, place + 1 - passed, middle, told);
        }
        int count = __builtin_clzll(found);
        return middle << count >> 63 ? passed + count : 1 - passed - count;
    }
    INLINE int straight(int x, int y, int d) const {
        switch (d) {
        case E: return forward(grid.rows, y, x);
        case W: return back(grid.rows, y, x);
        case S: return forward(grid.columns, x, y);
        default: return back(grid.columns, x, y);
        }
    }
    template <int D> INLINE bool is_legal(int x, int y) const {
        constexpr int dx = D == NE || D == SE ? 1 : -1, dy = D == SE || D == SW ? 1 : -1;
        u32 ahead = grid.rows.get(y + dy, x + dx);
        if (RULE == BOTH) return ahead;
        u32 across = grid.rows.get(y, x + dx), down = grid.rows.get(y + dy, x);
        return ahead & (RULE == ONE ? across | down : across & down);
    }
    template <int D> INLINE int diagonal(int x, int y, int goal_x, int goal_y) const {
        constexpr int dx = D == NE || D == SE ? 1 : -1, dy = D == SE || D == SW ? 1 : -1;
        int columns = (goal_x - x) * dx, rows = (goal_y - y) * dy, near = std::min(columns, rows);
        for (int moves = 1;; moves++) {
            if (!is_legal<D>(x, y)) return 0;
            x += dx;
            y += dy;
            if (RULE != NONE && MARKED[around(grid, x, y)] >> D & 1) return moves;
            int along_row = straight(x, y, dx > 0 ? E : W);
            if (along_row > 0) return moves;
            int along_column = straight(x, y, dy > 0 ? S : N);
            if (along_column > 0) return moves;
            if (UNLIKELY(moves == near) && is_in_sight(columns - rows, along_row, along_column)) return moves;
        }
    }
    INLINE int stop(int x, int y, int d, int goal_x, int goal_y) const {
        switch (d) {
        case NE: return diagonal<NE>(x, y, goal_x, goal_y);
        case SE: return diagonal<SE>(x, y, goal_x, goal_y);
        case SW: return diagonal<SW>(x, y, goal_x, goal_y);
        case NW: return diagonal<NW>(x, y, goal_x, goal_y);
        default: return with_goal(straight(x, y, d), moves_to_goal(d, x, y, goal_x, goal_y));
        }
    }
    INLINE void prefetch(u32) const {}
};

// The tables of JPS+: for each cell and direction how far the next mark is, or else minus how long the run
// is.
struct Tables {
    const Grid &grid;
    Zeroed<i16> entries;

    explicit Tables(const Grid &on) : grid(on) {
        entries.take(size_t(grid.width) * size_t(grid.height) * 8);
        for (int y = 0; y < grid.height; y++) {              // the straight ones of a row are read by diagonal ones
            for (int x = grid.width - 1; x >= 0; x--) fill(x, y, {E});
            for (int x = 0; x < grid.width; x++) fill(x, y, {W});
        }
        for (int y = 0; y < grid.height; y++)
            for (int x = 0; x < grid.width; x++) fill(x, y, {N, NE, NW});
        for (int y = grid.height - 1; y >= 0; y--)
            for (int x = 0; x < grid.width; x++) fill(x, y, {S, SE, SW});
    }
    INLINE i16 *at(int x, int y) const { return entries.at + (size_t(y) * size_t(grid.width) + size_t(x)) * 8; }

    // The entries of a cell, where those of the next cell are known.
    INLINE void fill(int x, int y, std::initializer_list<Direction> directions) {
        u8 legal = LEGAL[around(grid, x, y)];
        for (Direction d : directions) {
            if (!(legal >> d & 1)) continue;                 // it is 0 from the start
            const i16 *next = at(x + DX[d], y + DY[d]);
            bool is_marked = MARKED[around(grid, x + DX[d], y + DY[d])] >> d & 1;
            if (d & 1) is_marked |= next[(d + 1) & 7] > 0 || next[(d + 7) & 7] > 0;
            at(x, y)[d] = i16(is_marked ? 1 : next[d] > 0 ? next[d] + 1 : next[d] - 1);
        }
    }
};

// Jumps by tables, which know nothing of the goal.
struct PlusJumps {
    const Grid &grid;
    Tables tables;
    explicit PlusJumps(const Grid &on) : grid(on), tables(on) {}
    INLINE int stop(int x, int y, int d, int goal_x, int goal_y) const {
        int run = tables.at(x, y)[d];
        if (!(d & 1)) return with_goal(run, moves_to_goal(d, x, y, goal_x, goal_y));
        int columns = (goal_x - x) * DX[d], rows = (goal_y - y) * DY[d], near = std::min(columns, rows);
        if (near > 0 && near <= std::abs(run) && near != run) {
            const i16 *there = tables.at(x + DX[d] * near, y + DY[d] * near);
            int along_row = there[DX[d] > 0 ? E : W], along_column = there[DY[d] > 0 ? S : N];
            if (is_in_sight(columns - rows, along_row, along_column)) return near;
        }
        return run > 0 ? run : 0;
    }
    INLINE void prefetch(u32 cell) const { __builtin_prefetch(tables.entries.at + size_t(cell) * 8); }
};

// ---------------------------------------------------------------- open lists

// What both open lists offer: `clear`, `add` of a node with its sum and its state, `lower` of one that has a
// lesser sum now, `pop` of the first node by sum and then by state (NIL where none is left), which may come
// once more after it was lowered, and `next`, a guess of what comes next.
INLINE u64 bits_of(double sum) {         // the doubles here are not negative, so their bits are in their order
    u64 bits;
    memcpy(&bits, &sum, 8);
    return bits;
}

// A heap with four children for each place. A lowered node is put in again, and comes a second time.
struct FourHeap {
    struct Item {
        u32 node, state;
        u64 sum;
    };
    std::vector<Item> items;
    size_t count = 0;

    static INLINE bool before(const Item &one, const Item &other) {
        u128 first, second;                                  // sum, then state, then node, as one number
        memcpy(&first, &one, 16);
        memcpy(&second, &other, 16);
        return first < second;
    }
    void clear() { count = 0; }
    INLINE void add(u32 node, u32 state, double sum) {
        if (UNLIKELY(count + 8 > items.size())) items.resize(std::max<size_t>(4096, items.size() * 2));
        Item item{node, state, bits_of(sum)}, *all = items.data();
        size_t place = count++;
        while (place) {
            size_t above = (place - 1) >> 2;
            if (!before(item, all[above])) break;
            all[place] = all[above];
            place = above;
        }
        all[place] = item;
    }
    INLINE void lower(u32 node, u32 state, double sum) { add(node, state, sum); }
    // The first of the four children from `child` on, without a branch.
    static INLINE size_t first_of_four(const Item *all, size_t child) {
        size_t one = child + before(all[child + 1], all[child]);
        size_t two = child + 2 + before(all[child + 3], all[child + 2]);
        return one ^ ((one ^ two) & -size_t(before(all[two], all[one])));
    }
    // The first of the children from `child` on, where `end` items are left.
    static INLINE size_t first_of_few(const Item *all, size_t child, size_t end) {
        size_t best = child;
        for (size_t other = child + 1; other < end; other++)
            if (before(all[other], all[best])) best = other;
        return best;
    }
    INLINE u32 pop() {
        if (!count) return NIL;
        const size_t end = --count;
        Item *all = items.data(), top = all[0], last = all[end];
        size_t place = 0;
        for (;;) {
            size_t child = place * 4 + 1;
            if (LIKELY(child + 3 < end)) child = first_of_four(all, child);
            else if (child < end) child = first_of_few(all, child, end);
            else break;
            if (!before(all[child], last)) break;
            all[place] = all[child];
            place = child;
        }
        all[place] = last;
        return top.node;
    }
    INLINE const Item *next() const { return items.data(); }
};

// A pairing heap over the nodes (Fredman, Sedgewick, Sleator and Tarjan 1986). A lowered node is cut and
// joined anew.
struct PairingHeap {
    struct Item {
        u64 sum;
        u32 state, child, next, previous;
    };
    std::vector<Item> items;
    u32 root = NIL;

    static INLINE bool before(const Item &one, const Item &other) {
        return (u128(one.sum) << 32 | one.state) < (u128(other.sum) << 32 | other.state);
    }
    void clear() {
        items.clear();
        root = NIL;
    }
    // Joins two trees, told by their roots; the later root becomes the first child of the other. Which is
    // which is chosen without a branch, as no guess of it would be good.
    INLINE u32 join(u32 one, u32 other) {
        const u32 swap = (one ^ other) & -u32(before(items[other], items[one]));
        const u32 top = one ^ swap, below = other ^ swap;
        const u32 child = items[top].child;
        items[below].next = child;
        items[below].previous = top;
        if (child != NIL) items[child].previous = below;
        items[top].child = below;
        return top;
    }
    INLINE void add(u32 node, u32 state, double sum) {       // nodes come in order: 0, 1, 2 ..
        items.push_back(Item{bits_of(sum), state, NIL, NIL, NIL});
        root = root == NIL ? node : join(root, node);
    }
    INLINE void lower(u32 node, u32 state, double sum) {
        Item &item = items[node];
        item.sum = bits_of(sum);
        item.state = state;
        if (node == root) return;
        Item &previous = items[item.previous];
        (previous.child == node ? previous.child : previous.next) = item.next;
        if (item.next != NIL) items[item.next].previous = item.previous;
        root = join(root, node);
    }
    // Joins the children of the root by two from the first on, then all pairs from the last one back.
    INLINE u32 pop() {
        const u32 top = root;
        if (top == NIL) return NIL;
        u32 left = items[top].child, pairs = NIL;
        while (left != NIL) {
            u32 pair = left, other = items[pair].next;
            left = other;
            if (other != NIL) {
                left = items[other].next;
                pair = join(pair, other);
            }
            items[pair].next = pairs;
            pairs = pair;
        }
        root = pairs;
        if (root == NIL) return top;
        for (pairs = items[root].next; pairs != NIL;) {
            const u32 rest = items[pairs].next;
            root = join(root, pairs);
            pairs = rest;
        }
        return top;
    }
    INLINE const FourHeap::Item *next() const { return nullptr; }
};

// ---------------------------------------------------------------- searches

struct Answer {
    bool found = false;
    u32 straight = 0, diagonal = 0;
    u64 taken = 0;
    std::vector<std::pair<int, int>> points;
    std::vector<u32> order;                                  // the taken states, where a trace is wanted
};

INLINE u32 state_number(u32 cell, u32 arrival) { return cell << 4 | arrival; }

// Handed on as a value, so that it need not be read again after each write to a node.
struct Goal {
    int x, y;
};

// The sum of a cost and the estimate from (x, y) to the goal.
INLINE double sum_of(int x, int y, u32 straight, u32 diagonal, Goal goal) {
    u32 columns = u32(std::abs(goal.x - x)), rows = u32(std::abs(goal.y - y));
    u32 less = std::min(columns, rows), more = std::max(columns, rows);
    u32 first = straight + more - less, second = diagonal + less;
    if (UNLIKELY((first > MOST) | (second > MOST))) fail("a sum beyond the exact range");
    return double(first) + double(second) * SQRT2;
}

// The search of the jump engines. With CELL a cell has one state, else one for each arrival.
template <class Open, bool CELL> struct JumpSearch {
    struct Node {
        double sum;
        u32 straight, diagonal;
        u32 parent, next;                                    // `next` has the same cell and another arrival
        u16 x, y;
        u8 arrival, taken;
        u16 room;                                            // named, so that a node is written as a whole
    };
    static_assert(sizeof(Node) == 32, "two nodes for each line of the cache");

    const u32 width;
    Zeroed<u32> index;                                       // of each cell its newest node, counted from `base`
    u32 base = 1, used = 0;
    std::vector<Node> nodes;
    Open open;

    JumpSearch(int columns, int rows) : width(u32(columns)), nodes(4096) { index.take(size_t(columns) * size_t(rows)); }

    template <class Jumps>
    void run(const Jumps &jumps, int start_x, int start_y, const Goal goal, Answer &answer, bool trace) {
        begin();
        index.at[u32(start_y) * width + u32(start_x)] = base;
        put(start_x, start_y, START, 0, 0, NIL, NIL, goal);
        for (u32 number; (number = open.pop()) != NIL;) {
            Node &node = nodes[number];
            if (node.taken) continue;
            if (auto *next = open.next()) {                  // have at hand what comes next, if the guess is right
                __builtin_prefetch(&nodes[next->node]);
                jumps.prefetch(next->state >> 4);
            }
            node.taken = 1;
            answer.taken++;
            const int x = node.x, y = node.y;
            const u32 straight = node.straight, diagonal = node.diagonal;
            if (UNLIKELY(trace)) answer.order.push_back(state_number(u32(y) * width + u32(x), node.arrival));
            if (UNLIKELY(x == goal.x && y == goal.y)) return finish(number, answer);
            for (u32 left = ALLOWED[around(jumps.grid, x, y)][node.arrival]; left; left &= left - 1) {
                int d = __builtin_ctz(left);
                int moves = jumps.stop(x, y, d, goal.x, goal.y);
                if (!moves) continue;
                u32 more = u32(moves);
                offer(x + DX[d] * moves, y + DY[d] * moves, d, d & 1 ? straight : straight + more,
                      d & 1 ? diagonal + more : diagonal, number, goal);
            }
        }
    }

private:
    // Numbers from `base` on are this search's, so the index is cleared only where `base` runs out.
    void begin() {
        base += used;
        if (UNLIKELY(base > 0xE0000000u)) {
            memset(index.at, 0, index.bytes);
            base = 1;
        }
        used = 0;
        open.clear();
    }
    INLINE void put(int x, int y, int arrival, u32 straight, u32 diagonal, u32 parent, u32 next, Goal goal) {
        if (UNLIKELY(used == nodes.size())) nodes.resize(nodes.size() * 2);
        const double sum = sum_of(x, y, straight, diagonal, goal);
        const u32 number = used++;
        nodes[number] = Node{sum, straight, diagonal, parent, next, u16(x), u16(y), u8(arrival), 0, 0};
        open.add(number, state_number(u32(y) * width + u32(x), u32(arrival)), sum);
    }
    INLINE void offer(int x, int y, int arrival, u32 straight, u32 diagonal, u32 parent, Goal goal) {
        u32 cell = u32(y) * width + u32(x);
        u32 &newest = index.at[cell];
        u32 head = newest >= base ? newest - base : NIL;
        for (u32 number = head; number != NIL; number = nodes[number].next) {
            Node &node = nodes[number];
            if (!CELL && node.arrival != arrival) continue;
            if (node.taken) return;
            double sum = sum_of(x, y, straight, diagonal, goal);
            if (sum < node.sum) {
                node.sum = sum;
                node.straight = straight;
                node.diagonal = diagonal;
                node.parent = parent;
                node.arrival = u8(arrival);
                open.lower(number, state_number(cell, u32(arrival)), sum);
            }
            return;
        }
        newest = base + used;
        put(x, y, arrival, straight, diagonal, parent, head, goal);
    }
    void finish(u32 number, Answer &answer) {
        answer.found = true;
        answer.straight = nodes[number].straight;
        answer.diagonal = nodes[number].diagonal;
        for (; number != NIL; number = nodes[number].parent)
            answer.points.emplace_back(nodes[number].x, nodes[number].y);
        std::reverse(answer.points.begin(), answer.points.end());
    }
};

// The search of the plain engine, with a node for each cell of the map.
struct PlainSearch {
    struct Node {
        u32 search;                                          // which search knows the cell
        u32 straight, diagonal;
        u8 arrival, taken;
        u16 room;                                            // named, so that a node is written as a whole
    };
    const Grid &grid;
    const int width;
    int ahead[8];                                            // how far on the next cell of a direction is numbered
    u32 search = 0;
    Zeroed<Node> nodes;
    FourHeap open;

    explicit PlainSearch(const Grid &on) : grid(on), width(on.width) {
        nodes.take(size_t(width) * size_t(grid.height));
        for (int d = 0; d < 8; d++) ahead[d] = DY[d] * width + DX[d];
    }
    void run(int start_x, int start_y, const Goal goal, Answer &answer, bool trace) {
        const u32 now = ++search;
        open.clear();
        const u32 start = u32(start_y) * u32(width) + u32(start_x), last = u32(goal.y) * u32(width) + u32(goal.x);
        nodes.at[start] = Node{now, 0, 0, START, 0, 0};
        open.add(start, start, sum_of(start_x, start_y, 0, 0, goal));
        for (u32 cell; (cell = open.pop()) != NIL;) {
            Node &node = nodes.at[cell];
            if (node.taken) continue;
            node.taken = 1;
            answer.taken++;
            if (UNLIKELY(trace)) answer.order.push_back(state_number(cell, START));
            if (UNLIKELY(cell == last)) return finish(cell, answer);
            const int x = int(cell % u32(width)), y = int(cell / u32(width));
            const u32 straight = node.straight, diagonal = node.diagonal;
            for (u32 left = LEGAL[around(grid, x, y)]; left; left &= left - 1) {
                int d = __builtin_ctz(left);
                u32 next = u32(int(cell) + ahead[d]);
                offer(x + DX[d], y + DY[d], next, d, straight + !(d & 1), diagonal + (d & 1), now, goal);
            }
        }
    }

private:
    static INLINE double value_of(u32 straight, u32 diagonal) { return double(straight) + double(diagonal) * SQRT2; }
    INLINE void offer(int x, int y, u32 cell, int arrival, u32 straight, u32 diagonal, u32 now, Goal goal) {
        Node &node = nodes.at[cell];
        if (node.search == now) {
            if (node.taken) return;
            if (!(value_of(straight, diagonal) < value_of(node.straight, node.diagonal))) return;
        }
        node = Node{now, straight, diagonal, u8(arrival), 0, 0};
        open.add(cell, cell, sum_of(x, y, straight, diagonal, goal));
    }
    // The ends of the walk and its turns.
    void finish(u32 cell, Answer &answer) {
        answer.found = true;
        answer.straight = nodes.at[cell].straight;
        answer.diagonal = nodes.at[cell].diagonal;
        for (int last = -1;; cell = u32(int(cell) - ahead[last])) {
            int arrival = nodes.at[cell].arrival;
            if (arrival != last) answer.points.emplace_back(int(cell % u32(width)), int(cell / u32(width)));
            if (arrival == START) break;
            last = arrival;
        }
        std::reverse(answer.points.begin(), answer.points.end());
    }
};

// ---------------------------------------------------------------- engines behind one call

struct Settings {
    Engine engine = PLAIN;
    Rule rule = NONE;
    bool one_state_a_cell = false, pairing = false, textbook = false;
    std::string show = "points";
};

// Answers queries on one layer.
struct Layer {
    virtual ~Layer() = default;
    virtual void query(int start_x, int start_y, int goal_x, int goal_y, Answer &answer, bool trace) = 0;
};

#include "textbook.hpp"

struct PlainLayer : Layer {
    Grid grid;
    PlainSearch search;
    PlainLayer(const Map &map, Ground layer) : grid(map, layer), search(grid) {}
    void query(int start_x, int start_y, int goal_x, int goal_y, Answer &answer, bool trace) override {
        search.run(start_x, start_y, Goal{goal_x, goal_y}, answer, trace);
    }
};

template <class Jumps, class Open, bool CELL> struct JumpLayer : Layer {
    Grid grid;
    Jumps jumps;
    JumpSearch<Open, CELL> search;
    JumpLayer(const Map &map, Ground layer) : grid(map, layer), jumps(grid), search(map.width, map.height) {}
    void query(int start_x, int start_y, int goal_x, int goal_y, Answer &answer, bool trace) override {
        search.run(jumps, start_x, start_y, Goal{goal_x, goal_y}, answer, trace);
    }
};

using LayerPointer = std::unique_ptr<Layer>;

template <class Jumps> static LayerPointer jump_layer(const Map &map, Ground layer, const Settings &settings) {
    if (settings.one_state_a_cell) {
        if (settings.pairing) return std::make_unique<JumpLayer<Jumps, PairingHeap, true>>(map, layer);
        return std::make_unique<JumpLayer<Jumps, FourHeap, true>>(map, layer);
    }
    if (settings.pairing) return std::make_unique<JumpLayer<Jumps, PairingHeap, false>>(map, layer);
    return std::make_unique<JumpLayer<Jumps, FourHeap, false>>(map, layer);
}

template <template <Rule> class Jumps>
static LayerPointer ruled_layer(const Map &map, Ground layer, const Settings &settings) {
    if (settings.rule == NONE) return jump_layer<Jumps<NONE>>(map, layer, settings);
    if (settings.rule == ONE) return jump_layer<Jumps<ONE>>(map, layer, settings);
    return jump_layer<Jumps<BOTH>>(map, layer, settings);
}

static LayerPointer textbook_layer(const Map &map, Ground layer, Engine engine) {
    if (engine == JPS) return std::make_unique<textbook::Search<textbook::ByCell>>(map, layer);
    if (engine == BLOCK) return std::make_unique<textbook::Search<textbook::ByBlock>>(map, layer);
    if (engine == PLAIN) return std::make_unique<textbook::BucketSearch>(map, layer);
    return std::make_unique<textbook::Search<textbook::ByTable>>(map, layer);
}

static LayerPointer layer_of(const Map &map, Ground layer, const Settings &settings) {
    if (settings.textbook) return textbook_layer(map, layer, settings.engine);
    switch (settings.engine) {
    case JPS: return ruled_layer<CellJumps>(map, layer, settings);
    case BLOCK: return ruled_layer<BlockJumps>(map, layer, settings);
    case PLUS: return jump_layer<PlusJumps>(map, layer, settings);
    default: return std::make_unique<PlainLayer>(map, layer);
    }
}

enum Case { WALK, APART, IS_BLOCKED, IS_OUTSIDE };           // APART: no walk, as the ends lie in different layers

// Answers queries and edits on a map. A layer is made when it is first asked for, and again after an edit.
struct Solver {
    Map map;
    Settings settings;
    LayerPointer layers[3];

    Solver(Map with, const Settings &how) : map(std::move(with)), settings(how) {}
    Layer &layer(Ground ground) {
        if (!layers[ground]) layers[ground] = layer_of(map, ground, settings);
        return *layers[ground];
    }
    Case query(i64 start_x, i64 start_y, i64 goal_x, i64 goal_y, Answer &answer) {
        answer = Answer();
        if (!map.has(start_x, start_y) || !map.has(goal_x, goal_y)) return IS_OUTSIDE;
        Ground from = Ground(map.at(start_x, start_y)), to = Ground(map.at(goal_x, goal_y));
        if (from == BLOCKED || to == BLOCKED) return IS_BLOCKED;
        if (from != to) return APART;
        layer(from).query(int(start_x), int(start_y), int(goal_x), int(goal_y), answer, settings.show == "trace");
        return WALK;
    }
    bool edit(i64 x, i64 y, Ground ground) {
        if (map.at(x, y) == ground) return false;
        map.at(x, y) = ground;
        for (LayerPointer &it : layers) it.reset();
        return true;
    }
};

// ---------------------------------------------------------------- commands

struct Output {
    std::string text;
    ~Output() { flush(); }
    void flush() {
        for (size_t from = 0; from < text.size();) {
            ssize_t count = write(1, text.data() + from, text.size() - from);
            if (count <= 0) _exit(5);
            from += size_t(count);
        }
        text.clear();
    }
    void word(const char *bytes) { text += bytes; }
    void number(u64 value) { text += std::to_string(value); }
    void cell(int x, int y) {
        text += ' ';
        number(u64(x));
        text += ',';
        number(u64(y));
    }
};

static void print_points(Output &out, const Answer &answer, bool all_cells) {
    for (size_t place = 0; place < answer.points.size(); place++) {
        auto [x, y] = answer.points[place];
        if (all_cells && place) {
            auto [at_x, at_y] = answer.points[place - 1];
            while (at_x != x || at_y != y) {
                at_x += (x > at_x) - (x < at_x);
                at_y += (y > at_y) - (y < at_y);
                out.cell(at_x, at_y);
            }
        } else out.cell(x, y);
    }
}

static void print_reply(Output &out, Case told, const Answer &answer, const Solver &solver) {
    if (told == IS_OUTSIDE) return out.word("outside\n");
    if (told == IS_BLOCKED) return out.word("blocked\n");
    if (answer.found) {
        out.word("walk ");
        out.number(answer.straight);
        out.word(" ");
        out.number(answer.diagonal);
        print_points(out, answer, solver.settings.show == "cells");
    } else out.word("none");
    if (solver.settings.show == "trace") {
        out.word(" taken");
        for (u32 state : answer.order) {
            out.cell(int(state >> 4) % solver.map.width, int(state >> 4) / solver.map.width);
            out.word(":");
            out.word(NAMES[state & 15]);
        }
    }
    out.word("\n");
}

static int query(Solver &solver, const std::vector<std::string> &words) {
    Output out;
    Answer answer;
    auto number = [&](size_t place) { return atoll(words[place].c_str()); };
    Case told = solver.query(number(2), number(3), number(4), number(5), answer);
    print_reply(out, told, answer, solver);
    return 0;
}

static int solve(Solver &solver, const std::string &script) {
    Output out;
    Answer answer;
    each_line(script, [&](const std::vector<std::string> &fields) {
        if (fields.empty()) return;
        auto number = [&](size_t place) { return place < fields.size() ? atoll(fields[place].c_str()) : -1; };
        if (fields[0] == "query") {
            Case told = solver.query(number(1), number(2), number(3), number(4), answer);
            return print_reply(out, told, answer, solver);
        }
        Ground ground = fields[0] == "block" ? BLOCKED : fields[0] == "free" ? LAND : WATER;
        if (ground == WATER && fields[0] != "flood") fail("script");
        if (!solver.map.has(number(1), number(2))) out.word("outside\n");
        else out.word(solver.edit(number(1), number(2), ground) ? "ok\n" : "same\n");
    });
    return 0;
}

static int scen(Solver &solver, const std::vector<Entry> &entries) {
    static const char *const VERDICTS[3] = {"agree", "near", "off"};
    Output out;
    Answer answer;
    u64 counts[3] = {0, 0, 0}, other = 0, row = 0, taken = 0;
    bool tells = solver.settings.show == "taken";
    auto tell = [&](u64 count) {
        if (!tells) return;
        out.word(" taken ");
        out.number(count);
    };
    for (const Entry &entry : entries) {
        out.word("row ");
        out.number(++row);
        bool fits = entry.width == solver.map.width && entry.height == solver.map.height;
        Case told = fits ? solver.query(entry.start_x, entry.start_y, entry.goal_x, entry.goal_y, answer) : IS_OUTSIDE;
        if (!fits || told >= IS_BLOCKED) out.word(!fits ? " scale" : told == IS_BLOCKED ? " blocked" : " outside");
        else if (answer.found) {
            Verdict verdict = verdict_of(entry, answer.straight, answer.diagonal);
            counts[verdict]++;
            out.text += ' ' + std::string(VERDICTS[verdict]) + ' ';
            out.text += std::to_string(answer.straight) + ' ' + std::to_string(answer.diagonal);
        } else out.word(" none");
        if (!answer.found || !fits || told >= IS_BLOCKED) other++;
        if (fits && told < IS_BLOCKED) {
            tell(answer.taken);
            taken += answer.taken;
        }
        out.word("\n");
    }
    out.text += "sum " + std::to_string(row) + " agree " + std::to_string(counts[AGREE]);
    out.text += " near " + std::to_string(counts[NEAR]) + " off " + std::to_string(counts[OFF]);
    out.text += " other " + std::to_string(other);
    tell(taken);
    out.word("\n");
    return counts[OFF] || other;
}

static u64 nanoseconds() {
    timespec time;
    clock_gettime(CLOCK_MONOTONIC, &time);
    return u64(time.tv_sec) * 1000000000u + u64(time.tv_nsec);
}

// The walks of a scenario as `bench/contest` reads them, each with its nanoseconds and its taken states
// behind it.
static int timed(Solver &solver, const std::vector<Entry> &entries, u64 began) {
    Output out;
    Answer answer;
    solver.layer(LAND);
    out.text = "prepared " + std::to_string(nanoseconds() - began) + "\n";
    for (const Entry &entry : entries) {
        u64 before = nanoseconds();
        solver.query(entry.start_x, entry.start_y, entry.goal_x, entry.goal_y, answer);
        u64 spent = nanoseconds() - before;
        if (answer.found) print_points(out, answer, false);
        else out.word("none");
        out.text += ' ' + std::to_string(spent) + ' ' + std::to_string(answer.taken) + '\n';
    }
    return 0;
}

static int print_tables(const Map &map, Rule rule) {
    Output out;
    auto two_bytes = [&](u32 value) {
        out.text += char(value & 255);
        out.text += char(value >> 8 & 255);
    };
    out.text = "JPSPLUS1";
    out.text += char(rule);
    two_bytes(u32(map.width));
    two_bytes(u32(map.height));
    for (Ground layer : {LAND, WATER}) {
        Grid grid(map, layer);
        Tables tables(grid);
        for (size_t place = 0; place < map.grounds.size() * 8; place++) two_bytes(u16(tables.entries.at[place]));
        out.flush();
    }
    return 0;
}

// The generator of `jps make` and of the crate rand_pcg (Lcg64Xsh32; O'Neill 2014).
struct Generator {
    u64 state, step;
    static u32 mixed(u64 from) {
        u32 word = u32((from >> 18 ^ from) >> 27), turn = u32(from >> 59);
        return word >> turn | word << ((32 - turn) & 31);
    }
    explicit Generator(u64 seed) {
        u32 words[4];
        for (u32 &word : words) word = mixed(seed = seed * 6364136223846793005ull + 11634580027462260723ull);
        state = u64(words[1]) << 32 | words[0];
        step = (u64(words[3]) << 32 | words[2]) | 1;
        state = (state + step) * 6364136223846793005ull + step;
    }
    u32 next() {
        u64 before = state;
        state = state * 6364136223846793005ull + step;
        return mixed(before);
    }
    int below(int count) { return int(next() % u32(count)); }
};

struct Problem {
    int start_x, start_y, goal_x, goal_y;
    u32 straight, diagonal;
};

// Draws a start, then a goal in a square around it whose size is drawn first, so that there are short and
// long ones.
static bool draw_problem(Generator &generator, const Map &map, Problem &it) {
    auto is_land = [&](int x, int y) { return map.has(x, y) && map.at(x, y) == LAND; };
    int tries = 0;
    do {
        if (tries++ == 100000) fail("no free cell");
        it.start_x = generator.below(map.width);
        it.start_y = generator.below(map.height);
    } while (!is_land(it.start_x, it.start_y));
    int most = 2 + generator.below(std::max(map.width, map.height));
    for (int go = 0; go < 50; go++) {
        it.goal_x = it.start_x + generator.below(2 * most + 1) - most;
        it.goal_y = it.start_y + generator.below(2 * most + 1) - most;
        if (is_land(it.goal_x, it.goal_y) && (it.goal_x != it.start_x || it.goal_y != it.start_y)) return true;
    }
    return false;
}

// Six times as many problems as are wanted, in buckets by a quarter of their length.
static std::vector<std::vector<Problem>> drawn_buckets(Solver &solver, size_t wanted, u64 seed) {
    Generator generator(seed);
    std::vector<std::vector<Problem>> buckets;
    Answer answer;
    size_t drawn = 0;
    for (size_t tries = 0; drawn < wanted * 6 && tries < wanted * 120; tries++) {
        Problem it;
        if (!draw_problem(generator, solver.map, it)) continue;
        solver.query(it.start_x, it.start_y, it.goal_x, it.goal_y, answer);
        if (!answer.found) continue;
        it.straight = answer.straight;
        it.diagonal = answer.diagonal;
        size_t bucket = size_t((it.straight + it.diagonal * SQRT2) / 4);
        if (buckets.size() <= bucket) buckets.resize(bucket + 1);
        buckets[bucket].push_back(it);
        drawn++;
    }
    return buckets;
}

// The wanted number of problems, evenly from all buckets that have some.
static std::vector<std::pair<size_t, Problem>> picked(const std::vector<std::vector<Problem>> &buckets, size_t wanted) {
    std::vector<size_t> full;
    std::vector<std::pair<size_t, Problem>> picks;
    for (size_t bucket = 0; bucket < buckets.size(); bucket++)
        if (!buckets[bucket].empty()) full.push_back(bucket);
    if (full.size() >= wanted) {
        for (size_t place = 0; place < wanted; place++) {
            size_t bucket = full[place * full.size() / wanted];
            picks.emplace_back(bucket, buckets[bucket][0]);
        }
        return picks;
    }
    bool any = true;
    for (size_t round = 0; any && picks.size() < wanted; round++) {
        any = false;
        for (size_t bucket : full)
            if (round < buckets[bucket].size() && picks.size() < wanted) {
                picks.emplace_back(bucket, buckets[bucket][round]);
                any = true;
            }
    }
    std::stable_sort(picks.begin(), picks.end(), [](auto &one, auto &other) { return one.first < other.first; });
    return picks;
}

static int write_scenario(Solver &solver, size_t wanted, u64 seed, const char *name) {
    printf("version 1\n");
    for (auto &[bucket, it] : picked(drawn_buckets(solver, wanted, seed), wanted))
        printf("%zu\t%s\t%d\t%d\t%d\t%d\t%d\t%d\t%s\n", bucket, name, solver.map.width, solver.map.height, it.start_x,
               it.start_y, it.goal_x, it.goal_y, decimal_of(it.straight, it.diagonal).c_str());
    return 0;
}

// Takes a word that sets something; whether it is one.
static bool take_setting(const std::string &word, Settings &settings) {
    static const char *const ENGINES[4] = {"engine=plain", "engine=jps", "engine=block", "engine=plus"};
    static const char *const RULES[3] = {"rule=none", "rule=one", "rule=both"};
    static const char *const SHOWN[4] = {"show=points", "show=cells", "show=trace", "show=taken"};
    for (int place = 0; place < 4; place++)
        if (word == ENGINES[place]) { settings.engine = Engine(place); return true; }
    for (int place = 0; place < 3; place++)
        if (word == RULES[place]) { settings.rule = Rule(place); return true; }
    for (const char *shown : SHOWN)
        if (word == shown) { settings.show = word.substr(5); return true; }
    if (word == "states=arrival" || word == "states=cell") settings.one_state_a_cell = word == "states=cell";
    else if (word == "open=heap" || word == "open=pairing") settings.pairing = word == "open=pairing";
    else if (word == "by=textbook") settings.textbook = true;
    else return false;
    return true;
}

int main(int count, char **given) {
    const u64 began = nanoseconds();
    std::vector<std::string> words;
    Settings settings;
    for (int place = 1; place < count; place++)
        if (!take_setting(given[place], settings)) words.push_back(given[place]);
    if (words.size() < 2) fail("words");
    if (settings.textbook && settings.rule != NONE) fail("by=textbook knows no rule but none");
    make_rule(settings.rule);
    Map map = parse_map(read_file(words[1].c_str()));
    const std::string &command = words[0];
    if (command == "tables" && words.size() == 2) return print_tables(map, settings.rule);
    if (command == "scenario" && words.size() == 5) settings.engine = BLOCK;
    Solver solver(std::move(map), settings);
    if (command == "query" && words.size() == 6) return query(solver, words);
    if (command == "solve" && words.size() == 3) return solve(solver, read_file(words[2].c_str()));
    if (command == "timed" && words.size() == 3)
        return timed(solver, parse_scenario(read_file(words[2].c_str())), began);
    if (command == "scen" && words.size() == 3) return scen(solver, parse_scenario(read_file(words[2].c_str())));
    if (command == "scenario" && words.size() == 5) {
        u64 seed = strtoull(words[3].c_str(), nullptr, 10);
        return write_scenario(solver, size_t(atoll(words[2].c_str())), seed, words[4].c_str());
    }
    fail("words");
}
