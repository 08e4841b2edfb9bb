// The edge of the program as a WebAssembly module with a 64-bit memory: its heap, and room for what its host hands over.
//
// A block has a size of one of the classes below, behind a head that tells it. A block that is given back waits for the
// next one of its class; the one that ends where the used memory does makes that shorter. Nothing is kept from one call
// of the host to the next, so calls take together no more memory than the largest one. The program is a single thread.
typedef __UINT64_TYPE__ uint64_t;
typedef __SIZE_TYPE__ size_t;

#define NULL ((void *)0)

// What the program wants of a block: whether there is one, and where; where there is none, a place that is not null.
typedef struct {
    uint64_t is_there;
    void *at;
} taken;

// Before each block. Its 16 bytes keep what lies behind it at a multiple of 16, as the program asks for.
typedef struct head {
    uint64_t size;
    struct head *next; // where the block waits
} head;

enum { PAGE = 65536, CLASSES = 113, GROWN_PAGES = 64 };

// No block is larger: the memory ends at 16 GiB.
static const uint64_t MOST = (uint64_t)1 << 34;

extern unsigned char __heap_base; // where the linker's own data ends
static char nothing;
static uint64_t end; // where the used memory ends, a multiple of 16
static head *waiting[CLASSES];

// The class of a block of n bytes, at most MOST: of class 0 are those up to 64, and four classes double that.
static unsigned class_of(uint64_t n) {
    if (n <= 64) return 0;
    unsigned shift = 61 - (unsigned)__builtin_clzll(n - 1);
    return (shift - 4) * 4 + (unsigned)((n - 1) >> shift) - 3;
}

static uint64_t size_of(unsigned class) { return (uint64_t)(4 + class % 4) << (4 + class / 4); }

// Whether the memory reaches so far, by growing where it did not. A refused growth changes nothing.
static int reaches(uint64_t to) {
    uint64_t have = __builtin_wasm_memory_size(0);
    uint64_t want = (to + PAGE - 1) / PAGE;
    if (want <= have) return 1;
    uint64_t more = want - have;
    if (more < GROWN_PAGES && __builtin_wasm_memory_grow(0, GROWN_PAGES) != (size_t)-1) return 1;
    return __builtin_wasm_memory_grow(0, more) != (size_t)-1;
}

// Gives up every block. The host calls it before each call, and first of all.
__attribute__((export_name("jps_reset"))) void jps_reset(void) {
    end = ((uint64_t)&__heap_base + 15) & ~(uint64_t)15;
    for (unsigned class = 0; class < CLASSES; class++) waiting[class] = NULL;
}

// A block for n bytes, at a multiple of 16, or null where the memory does not grow so far.
__attribute__((export_name("jps_room"))) void *jps_room(uint64_t n) {
    if (n > MOST) return NULL;
    unsigned class = class_of(n);
    head *it = waiting[class];
    if (it) {
        waiting[class] = it->next;
        return it + 1;
    }
    uint64_t size = size_of(class);
    if (!reaches(end + sizeof(head) + size)) return NULL;
    it = (head *)end;
    it->size = size;
    end += sizeof(head) + size;
    return it + 1;
}

static int is_last(const head *it) { return (uint64_t)(it + 1) + it->size == end; }

static taken told(void *at) { return (taken){at != NULL, at ? at : &nothing}; }

// A block for `size` bytes, or for `least` where that is 0.
taken rattle_alloc(size_t size, size_t least) { return told(jps_room(size ? size : least)); }

// Gives a block back.
void rattle_dealloc(void *at) {
    head *it = (head *)at - 1;
    if (is_last(it)) {
        end = (uint64_t)it;
        return;
    }
    unsigned class = class_of(it->size);
    it->next = waiting[class];
    waiting[class] = it;
}

// The same bytes in a block for `size` bytes, or for `least`. Where there is none, the old one stays as it is.
taken rattle_realloc(void *at, size_t old, size_t size, size_t least) {
    (void)old;
    head *it = (head *)at - 1;
    uint64_t want = size ? size : least;
    if (want <= it->size) return told(at);
    if (is_last(it) && want <= MOST) {
        uint64_t wide = size_of(class_of(want));
        if (reaches((uint64_t)at + wide)) {
            it->size = wide;
            end = (uint64_t)at + wide;
            return told(at);
        }
    }
    void *now = jps_room(want);
    if (!now) return told(NULL);
    __builtin_memcpy(now, at, it->size);
    rattle_dealloc(at);
    return told(now);
}
