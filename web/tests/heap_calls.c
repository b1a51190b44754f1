/* The calls of the heap under names for JavaScript, for its tests: 0 is no block. */
#include "../heap.c"

#define CALL(name) __attribute__((export_name(#name)))

CALL(take) void *take(word bytes) {
    return rattle_alloc(bytes, 16).block;
}

CALL(resize) void *resize(void *block, word kept, word bytes) {
    return rattle_realloc(block, kept, bytes, 16).block;
}

CALL(give_back) void give_back(void *block) {
    rattle_dealloc(block);
}
