// Tries web/heap.c on its own: random requests, each block filled and compared as long as it stands, with memory that ends
// after a while; and the arithmetic beside the compiler's own. tools/try-page compiles it with the sanitizers.
#include <assert.h>
#include <stdint.h>
#include <stdio.h>
#include <stdlib.h>

#include "sanitizer/asan_interface.h"

#define ROOM ((size_t)64 << 20)
static _Alignas(16) char room[ROOM];
static size_t given;

static char *grown(size_t pages) {
    size_t bytes = pages * 65536;
    if (bytes > ROOM - given) return 0;
    __asan_unpoison_memory_region(room + given, bytes);
    given += bytes;
    return room + given - bytes;
}

#include "heap.c"

#define BLOCKS 512
static struct {
    unsigned char *at;
    size_t bytes;
    unsigned char fill;
} held[BLOCKS];

static uint64_t seed = 1;
static uint64_t drawn(void) {
    seed ^= seed << 13;
    seed ^= seed >> 7;
    return seed ^= seed << 17;
}

// Few long blocks and many short ones.
static size_t length(void) { return drawn() >> (43 + drawn() % 21); }

static void fill(size_t i, size_t from) {
    for (size_t k = from; k < held[i].bytes; k++) held[i].at[k] = (unsigned char)(held[i].fill + k);
}

static void compare(size_t i, size_t bytes) {
    for (size_t k = 0; k < bytes; k++) assert(held[i].at[k] == (unsigned char)(held[i].fill + k));
}

static size_t refused;

static void take(size_t i) {
    size_t bytes = length();
    struct tried t = rattle_alloc(bytes, (size_t)1 << drawn() % 5);
    assert(t.p);
    if (!t.ok) {
        refused++;
        return;
    }
    assert((size_t)t.p % 16 == 0);
    held[i].at = t.p;
    held[i].bytes = bytes;
    held[i].fill = (unsigned char)drawn();
    fill(i, 0);
}

static void resize(size_t i) {
    size_t bytes = length(), kept = bytes < held[i].bytes ? bytes : held[i].bytes;
    struct tried t = rattle_realloc(held[i].at, kept, bytes, (size_t)1 << drawn() % 5);
    assert(t.p);
    if (!t.ok) {
        refused++;
        compare(i, held[i].bytes);
        return;
    }
    held[i].at = t.p;
    held[i].bytes = bytes;
    compare(i, kept);
    fill(i, kept);
}

static void give_up(size_t i) {
    compare(i, held[i].bytes);
    rattle_dealloc(held[i].at);
    held[i].at = 0;
}

static void try_requests(void) {
    for (size_t n = 0; n < 40000; n++) {
        size_t i = drawn() % BLOCKS;
        if (!held[i].at) take(i);
        else if (drawn() % 3) resize(i);
        else give_up(i);
    }
    for (size_t i = 0; i < BLOCKS; i++)
        if (held[i].at) give_up(i);
}

static void try_steps(void) {
    for (size_t units = 1; units < 100000; units++) {
        size_t step = step_of(units), has = units_of(step);
        assert(step < STEPS && has >= units && has <= units + units / 3 + 1 && step_of(has) == step);
    }
    assert(step_of(LONGEST / UNIT) < STEPS && units_of(step_of(LONGEST / UNIT)) >= LONGEST / UNIT);
    assert(!page_buffer(LONGEST + 1) && !page_buffer((size_t)-1) && !page_buffer(LONGEST));
}

// Only a request of an alignment that no block is sure to have is refused.
static void try_alignments(void) {
    struct tried t = rattle_alloc(8, 16);
    assert(t.ok && !rattle_alloc(8, 32).ok && !rattle_realloc(t.p, 8, 4, 32).ok && rattle_realloc(t.p, 8, 4, 16).p == t.p);
    rattle_dealloc(t.p);
}

static void try_numbers(void) {
    for (size_t n = 0; n < 100000; n++) {
        wide a = (wide)(drawn() >> drawn() % 64) << 64 | drawn() >> drawn() % 64;
        wide b = (wide)(drawn() >> drawn() % 64) << 64 | drawn() >> drawn() % 64;
        int by = (int)(drawn() % 128);
        assert(__multi3(a, b) == a * b && __ashlti3(a, by) == a << by && __lshrti3(a, by) == a >> by);
    }
}

int main(void) {
    __asan_poison_memory_region(room, ROOM);
    try_steps();
    try_alignments();
    try_requests();
    try_numbers();
    assert(refused && given > ROOM / 2);
    printf("%zu requests were refused, all others stood\n", refused);
    return 0;
}
