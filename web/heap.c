// What the page's module has in place of a C library: the heap that compiled Rattle calls by name, room for the page's
// texts, and what the compiler calls for. Memory is never given back, since each run has an instance of its own.
//
// A block has 16 bytes before it that name its size. Sizes go in steps, four to each power of two, and a block that was
// given up serves the next request of its step.
// The kit's compiler has no headers.
typedef __SIZE_TYPE__ size_t;
typedef unsigned long long word;
typedef unsigned __int128 wide;
#define PAGE 65536

#ifdef __wasm__
// Where so many more pages of memory begin; null where there is no more.
static char *grown(size_t pages) {
    size_t before = __builtin_wasm_memory_grow(0, pages);
    return before == (size_t)-1 ? 0 : (char *)(before * PAGE);
}
#endif

struct block {
    size_t step;
    struct block *next;
};

#define UNIT sizeof(struct block)
#define LONGEST ((size_t)1 << 62)
#define STEPS 256

static struct block *given_up[STEPS];
static char *unused, *end;

// The step of a block of so many units: the least step whose blocks are as long.
static size_t step_of(size_t units) {
    size_t shift = 0;
    for (; units > 7; shift++) units = (units + 1) / 2;
    return 4 * shift + units;
}

// The units of the blocks of a step.
static size_t units_of(size_t step) { return step < 8 ? step : (4 + step % 4) << (step / 4 - 1); }

// So many bytes that were never used; null where there is no more memory.
static void *fresh(size_t bytes) {
    size_t left = end - unused;
    if (bytes > left) {
        size_t pages = (bytes - left + PAGE - 1) / PAGE;
        char *more = grown(pages);
        if (!more) return 0;
        if (!end) unused = more;
        end = more + pages * PAGE;
    }
    unused += bytes;
    return unused - bytes;
}

// A place for so many bytes, aligned to 16; null where there is no more memory.
void *page_buffer(size_t bytes) {
    if (bytes > LONGEST) return 0;
    size_t step = step_of((bytes + UNIT - 1) / UNIT);
    struct block *head = given_up[step];
    if (head) {
        given_up[step] = head->next;
    } else {
        head = fresh((units_of(step) + 1) * UNIT);
        if (!head) return 0;
        head->step = step;
    }
    return head + 1;
}

// What the kit's heap answers: whether there is memory, and where. Where there is none, that isn't null either.
struct tried {
    _Bool ok;
    void *p;
};

static struct tried answer(void *p) { return (struct tried){p != 0, p ? p : given_up}; }

// Every block is aligned to 16; a greater alignment is answered as want of memory.
struct tried rattle_alloc(size_t bytes, size_t align) { return answer(align > UNIT ? 0 : page_buffer(bytes)); }

void rattle_dealloc(void *p) {
    struct block *head = (struct block *)p - 1;
    head->next = given_up[head->step];
    given_up[head->step] = head;
}

// What the block has stays; where there is no memory, the block stays as it was.
struct tried rattle_realloc(void *p, size_t kept, size_t bytes, size_t align) {
    (void)kept;
    size_t has = units_of(((struct block *)p - 1)->step) * UNIT;
    if (bytes <= has && align <= UNIT) return answer(p);
    struct tried longer = rattle_alloc(bytes, align);
    if (longer.ok) {
        __builtin_memcpy(longer.p, p, has);
        rattle_dealloc(p);
    }
    return longer;
}

// What the compiler calls for. Of a product's high word alone it makes a call of this very function: so the low word is put
// together here of the same parts.
wide __multi3(wide a, wide b) {
    word half = 0xffffffff, a0 = a & half, a1 = (word)a >> 32, b0 = b & half, b1 = (word)b >> 32;
    word low = a0 * b0, mid = a1 * b0 + (low >> 32), other = a0 * b1 + (mid & half);
    word high = a1 * b1 + (mid >> 32) + (other >> 32) + (word)a * (word)(b >> 64) + (word)(a >> 64) * (word)b;
    return (wide)high << 64 | other << 32 | (low & half);
}

wide __ashlti3(wide a, int by) {
    word low = a, high = a >> 64;
    if (by & 64) return (wide)(low << (by & 63)) << 64;
    return (wide)(high << by | low >> 1 >> (63 - by)) << 64 | low << by;
}

wide __lshrti3(wide a, int by) {
    word low = a, high = a >> 64;
    if (by & 64) return high >> (by & 63);
    return (wide)(high >> by) << 64 | low >> by | high << 1 << (63 - by);
}
