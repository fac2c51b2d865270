/*
 * The memory of the library, over malloc, realloc and free: the three functions that the crates' allocator calls.
 * A block of no bytes is asked for as one of its alignment, which is at most 16, as malloc aligns each block.
 */
#include <stddef.h>
#include <stdint.h>
#include <stdlib.h>

/* A block and whether it was given. Where memory is refused, its place is some address that nothing reads. */
struct block {
    uint64_t is_given;
    void *place;
};

struct block rattle_alloc(size_t size, size_t alignment);
struct block rattle_realloc(void *place, size_t old_size, size_t size, size_t alignment);
void rattle_dealloc(void *place);

static char nowhere;

static struct block given(void *place) {
    struct block block = {place != NULL, place != NULL ? place : &nowhere};
    return block;
}

struct block rattle_alloc(size_t size, size_t alignment) {
    return given(malloc(size > 0 ? size : alignment));
}

struct block rattle_realloc(void *place, size_t old_size, size_t size, size_t alignment) {
    (void)old_size;
    return given(realloc(place, size > 0 ? size : alignment));
}

void rattle_dealloc(void *place) {
    free(place);
}
