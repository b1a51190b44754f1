/* The heap of the WebAssembly module: the three functions of C that Rattle's library asks for memory. Natively the C library stands behind
   them; a module has none.

   A block has a power of two of bytes, at an address that 16 divides, and before them 16 bytes that say which power. A block that is freed
   goes to the list of its size, and the next one of this size is taken from there. New blocks are cut from pages that this heap has grown
   itself: the caller of the module may grow the memory too, at any time, and all that it grew is its own.

   A refused block is a null pointer, and the call of the module then ends as one to which memory was refused. The module's addresses have
   64 bits in this file, but 32 in the module that is shipped. There a growth that is refused comes back as 2^32 - 1, and a block of 4 GiB
   would seem to have no bytes; so neither is ever taken for a block. */

typedef unsigned char byte;
typedef unsigned long word; /* 64 bits */

/* What the library gets back: whether there is a block, and where. Whatever it doesn't look at is 0. */
struct tried {
    word is_there;
    void *block;
};

struct head {
    word power;
    struct head *next; /* while the block is free */
};

enum { PAGE = 65536, LEAST_POWER = 4, MOST_POWER = 31 };

static const word REFUSED = 0xFFFFFFFF;

/* The free blocks of each size, and the pages from which the next blocks are cut. */
static struct head *freed[MOST_POWER + 1];
static word next_at, end;

static struct tried refused(void) {
    return (struct tried){0, 0};
}

/* The least power of two that has room for so many bytes; MOST_POWER + 1 if there is none. */
static word power_for(word bytes) {
    word power = LEAST_POWER;
    while (power <= MOST_POWER && ((word)1 << power) < bytes)
        power++;
    return power;
}

/* Makes room for so many bytes in pages, and returns whether there is room. Pages that follow the last ones are joined to them. */
static int has_room(word bytes) {
    if (bytes <= end - next_at)
        return 1;
    word pages = (bytes + PAGE - 1) / PAGE;
    word first = __builtin_wasm_memory_grow(0, pages);
    if (first >= REFUSED)
        return 0;
    if (first * PAGE != end)
        next_at = first * PAGE;
    end = (first + pages) * PAGE;
    return 1;
}

static struct tried block_for(word bytes) {
    word power = power_for(bytes);
    if (power > MOST_POWER)
        return refused();
    struct head *head = freed[power];
    if (head) {
        freed[power] = head->next;
    } else {
        word whole = sizeof(struct head) + ((word)1 << power);
        if (!has_room(whole))
            return refused();
        head = (struct head *)next_at;
        next_at += whole;
    }
    head->power = power;
    return (struct tried){1, head + 1};
}

/* The library asks for no alignment that doesn't divide 16. */
struct tried rattle_alloc(word bytes, word alignment) {
    (void)alignment;
    return block_for(bytes);
}

void rattle_dealloc(void *block) {
    struct head *head = (struct head *)block - 1;
    head->next = freed[head->power];
    freed[head->power] = head;
}

struct tried rattle_realloc(void *block, word kept, word bytes, word alignment) {
    (void)alignment;
    struct head *head = (struct head *)block - 1;
    if (power_for(bytes) <= head->power)
        return (struct tried){1, block};
    struct tried other = block_for(bytes);
    if (other.is_there) {
        __builtin_memcpy(other.block, block, kept);
        rattle_dealloc(block);
    }
    return other;
}
