/* The linker gives these functions to everyone who calls malloc, realloc and free. */
#include "memory.h"

#include <stdint.h>
#include <string.h>

void *__real_malloc(size_t size);
void *__real_realloc(void *at, size_t size);
void __real_free(void *at);
void *__wrap_malloc(size_t size);
void *__wrap_realloc(void *at, size_t size);
void __wrap_free(void *at);

/* Octets after each block, which nobody may write to, and how many blocks there may be at once. */
enum { AFTER = 32, MARK = 0xA5, BLOCKS = 256 };

/* The blocks that were given since counting began, and not taken back; none where `at` is NULL. */
static struct {
    uint8_t *at;
    size_t size;
} blocks[BLOCKS];

static bool counting = false;
static bool well; /* whether nobody wrote after a block, and there were never too many */
static size_t asked, refused_at, live, held, most;

void count_allocations(size_t refused) {
    counting = well = true;
    asked = live = held = most = 0;
    refused_at = refused;
    memset(blocks, 0, sizeof blocks);
}

size_t allocations(bool *all_freed) {
    counting = false;
    *all_freed = live == 0 && well;
    return asked;
}

bool took_none(void) {
    bool all_freed;
    return allocations(&all_freed) == 0;
}

size_t most_octets(void) { return most; }

static bool is_refused(void) { return counting && asked++ == refused_at; }

/* The number of the block at this place, or BLOCKS. */
static size_t number_of(const uint8_t *at) {
    size_t number = 0;
    while (number < BLOCKS && blocks[number].at != at) number++;
    return number;
}

static void give(uint8_t *at, size_t size) {
    size_t number = number_of(NULL);
    if (number == BLOCKS) {
        well = false;
        return;
    }
    blocks[number].at = at;
    blocks[number].size = size;
    memset(at + size, MARK, AFTER);
    live++;
    held += size;
    if (held > most) most = held;
}

static void look_after(size_t number) {
    size_t place;
    for (place = 0; place < AFTER; place++) {
        if (blocks[number].at[blocks[number].size + place] != MARK) well = false;
    }
}

static void take_back(size_t number) {
    live--;
    held -= blocks[number].size;
    blocks[number].at = NULL;
}

void *__wrap_malloc(size_t size) {
    void *made = is_refused() ? NULL : __real_malloc(counting ? size + AFTER : size);
    if (counting && made) give(made, size);
    return made;
}

void *__wrap_realloc(void *at, size_t size) {
    size_t number = counting && at ? number_of(at) : BLOCKS;
    void *made;
    if (number < BLOCKS) look_after(number);
    made = is_refused() ? NULL : __real_realloc(at, counting ? size + AFTER : size);
    /* Both blocks are there while octets are moved, so both count for a moment. */
    if (counting && made) give(made, size);
    if (made && number < BLOCKS) take_back(number);
    return made;
}

void __wrap_free(void *at) {
    size_t number = counting && at ? number_of(at) : BLOCKS;
    if (number < BLOCKS) {
        look_after(number);
        take_back(number);
    }
    __real_free(at);
}
