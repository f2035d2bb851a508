// What the module needs of a C library: a heap of free lists by powers of two over the module's own memory, copies of memory, and a
// product of 128 bits. None of it is proved.
typedef unsigned long size_t;
typedef unsigned char u8;
struct block { size_t ok; void *at; };

extern u8 __heap_base;
static size_t next;
static void *free_of[48];

// A block has 16 bytes before it, of which the first 8 say its class: its size is 16 << class.
static unsigned class_of(size_t size) {
    unsigned class = 0;
    while (((size_t)16 << class) < size) class++;
    return class;
}

static void *take(size_t size) {
    if (size > ((size_t)1 << 34)) return 0;
    unsigned class = class_of(size);
    void *at = free_of[class];
    if (at) {
        free_of[class] = *(void **)at;
        return at;
    }
    if (!next) next = ((size_t)&__heap_base + 15) & ~(size_t)15;
    size_t end = next + 16 + ((size_t)16 << class);
    size_t have = __builtin_wasm_memory_size(0) << 16;
    if (end > have) {
        size_t more = (end - have + 65535) >> 16;
        size_t step = have >> 18; // a quarter of what there is, in pages
        if (__builtin_wasm_memory_grow(0, more > step ? more : step) == (size_t)-1
            && __builtin_wasm_memory_grow(0, more) == (size_t)-1) return 0;
    }
    *(size_t *)next = class;
    at = (void *)(next + 16);
    next = end;
    return at;
}

static void give(void *at) {
    size_t class = *(size_t *)((u8 *)at - 16);
    *(void **)at = free_of[class];
    free_of[class] = at;
}

void *memset(void *to, int byte, size_t n) {
    u8 *p = to;
    for (size_t i = 0; i < n; i++) p[i] = (u8)byte;
    return to;
}
void *memcpy(void *to, const void *from, size_t n) {
    u8 *p = to; const u8 *q = from;
    for (size_t i = 0; i < n; i++) p[i] = q[i];
    return to;
}
void *memmove(void *to, const void *from, size_t n) {
    u8 *p = to; const u8 *q = from;
    if (p < q) for (size_t i = 0; i < n; i++) p[i] = q[i];
    else while (n--) p[n] = q[n];
    return to;
}
int memcmp(const void *a, const void *b, size_t n) {
    const u8 *p = a, *q = b;
    for (size_t i = 0; i < n; i++) if (p[i] != q[i]) return p[i] < q[i] ? -1 : 1;
    return 0;
}
int bcmp(const void *a, const void *b, size_t n) { return memcmp(a, b, n); }

struct block rattle_alloc(size_t size, size_t align) {
    void *at = take(size ? size : align);
    return (struct block){at != 0, at ? at : (void *)&next};
}
struct block rattle_realloc(void *old, size_t used, size_t size, size_t align) {
    size_t want = size ? size : align;
    size_t class = *(size_t *)((u8 *)old - 16);
    if (class_of(want) == class) return (struct block){1, old};
    void *at = take(want);
    if (!at) return (struct block){0, &next};
    memcpy(at, old, used < want ? used : want);
    give(old);
    return (struct block){1, at};
}
void rattle_dealloc(void *at) { give(at); }

// For the page: memory for what it passes, and its return.
__attribute__((export_name("host_take"))) void *host_take(size_t n) { return take(n); }
__attribute__((export_name("host_give"))) void host_give(void *at) { give(at); }

// A product of 128 bits, which the compiler asks for by this name.
__int128 __multi3(__int128 a, __int128 b) {
    size_t al = (size_t)a, ah = (size_t)(a >> 64), bl = (size_t)b, bh = (size_t)(b >> 64);
    size_t a0 = al & 0xffffffff, a1 = al >> 32, b0 = bl & 0xffffffff, b1 = bl >> 32;
    size_t low = a0 * b0, mid = a1 * b0 + (low >> 32), more = a0 * b1 + (mid & 0xffffffff);
    size_t lo = (more << 32) | (low & 0xffffffff);
    size_t hi = a1 * b1 + (mid >> 32) + (more >> 32) + al * bh + ah * bl;
    return ((__int128)hi << 64) | (__int128)lo;
}
