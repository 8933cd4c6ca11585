// Tracks how much of the heap is in use during a call. All three libraries allocate by malloc.
#include "bench.hpp"
#include <algorithm>
#include <cstdlib>
#include <malloc.h>

extern "C" {
void *__libc_malloc(size_t);
void *__libc_calloc(size_t, size_t);
void *__libc_realloc(void *, size_t);
void __libc_free(void *);
}

static bool watched;
static long held, most;

static void *taken(void *block) {
    if (watched) most = std::max(most, held += malloc_usable_size(block));
    return block;
}

extern "C" {
void *malloc(size_t size) { return taken(__libc_malloc(size)); }

void *calloc(size_t count, size_t size) { return taken(__libc_calloc(count, size)); }

void free(void *block) {
    if (watched) held -= malloc_usable_size(block);
    __libc_free(block);
}

void *realloc(void *block, size_t size) {
    const long before = watched ? malloc_usable_size(block) : 0;
    void *moved = __libc_realloc(block, size);
    if (!moved) return moved;
    held -= before;
    return taken(moved);
}
}

static void watch(const std::function<void()> &call) {
    held = most = 0;
    watched = true;
    call();
    watched = false;
}

size_t most_of_heap(const std::function<void()> &call) {
    watch(call);
    return most;
}

size_t left_on_heap(const std::function<void()> &call) {
    watch(call);
    return held;
}
