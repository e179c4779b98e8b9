/* The memory of the library in WebAssembly, over memory.grow, and the calls that it takes from its C library.
 *
 * Sizes are powers of two, with a list of the free blocks of each. A block has its class in the 16 bytes before it. Memory that was taken is never given
 * back to the browser: a block that is free again serves the next call of its class.
 */
/* (the kit's clang has no headers) */
typedef __SIZE_TYPE__ size_t;
typedef __UINT64_TYPE__ uint64_t;

#define EXPORTED __attribute__((visibility("default")))

enum { PAGE = 65536, HEADER = 16, CLASSES = 48 };

typedef struct block {
    size_t class;
    struct block *next;
} block;

extern unsigned char __heap_base;
static block *free_blocks[CLASSES];
static size_t place, end;

void *memcpy(void *to, const void *from, size_t length) { return __builtin_memcpy(to, from, length); }

void *memmove(void *to, const void *from, size_t length) { return __builtin_memmove(to, from, length); }

void *memset(void *to, int byte, size_t length) { return __builtin_memset(to, byte, length); }

int memcmp(const void *one, const void *other, size_t length) {
    const unsigned char *left = one, *right = other;
    for (size_t at = 0; at < length; at++)
        if (left[at] != right[at])
            return left[at] < right[at] ? -1 : 1;
    return 0;
}

/* Gives the class of the least block with room for a length, or CLASSES. */
static size_t class_of(size_t length) {
    size_t class = 5;
    while (class < CLASSES && ((size_t)1 << class) - HEADER < length)
        class++;
    return class;
}

/* Gives memory that nothing has had before, or 0. */
static size_t more(size_t length) {
    if (!place)
        place = ((size_t)&__heap_base + HEADER - 1) / HEADER * HEADER, end = __builtin_wasm_memory_size(0) * (size_t)PAGE;
    if (end - place < length) {
        size_t pages = (length - (end - place) + PAGE - 1) / PAGE;
        /* (what it gives where it can't grow isn't -1 any more in a module that is lowered to 32 bits: so its size is looked at) */
        __builtin_wasm_memory_grow(0, pages);
        if (__builtin_wasm_memory_size(0) * (size_t)PAGE - end < pages * PAGE)
            return 0;
        end += pages * PAGE;
    }
    place += length;
    return place - length;
}

EXPORTED void *malloc(size_t length) {
    size_t class = class_of(length);
    if (class == CLASSES)
        return 0;
    block *found = free_blocks[class];
    if (found)
        free_blocks[class] = found->next;
    else if (!(found = (block *)more((size_t)1 << class)))
        return 0;
    found->class = class;
    return (char *)found + HEADER;
}

EXPORTED void free(void *memory) {
    if (!memory)
        return;
    block *freed = (block *)((char *)memory - HEADER);
    freed->next = free_blocks[freed->class];
    free_blocks[freed->class] = freed;
}

/* What the library is answered: whether there was memory, and where it stands; without memory a place that nobody reads. */
typedef struct {
    uint64_t is_there;
    void *memory;
} answer;

static answer answer_of(void *memory) { return memory ? (answer){1, memory} : (answer){0, free_blocks}; }

answer rattle_alloc(size_t length, size_t alignment) { return answer_of(malloc(length ? length : alignment)); }

answer rattle_realloc(void *memory, size_t old_length, size_t length, size_t alignment) {
    block *old = (block *)((char *)memory - HEADER);
    length = length ? length : alignment;
    if (length <= ((size_t)1 << old->class) - HEADER)
        return answer_of(memory);
    void *moved = malloc(length);
    if (moved) {
        memcpy(moved, memory, old_length < length ? old_length : length);
        free(memory);
    }
    return answer_of(moved);
}

void rattle_dealloc(void *memory) { free(memory); }

/* The product of two numbers of 128 bits, which WebAssembly has no instruction for: that of the low halves by four products of 32 bits, and above it
 * what the high halves add. */
unsigned __int128 __multi3(unsigned __int128 one, unsigned __int128 other) {
    uint64_t one_low = (uint64_t)one, other_low = (uint64_t)other, half = 0xFFFFFFFF;
    uint64_t low = (one_low & half) * (other_low & half);
    uint64_t middle = (one_low >> 32) * (other_low & half) + (low >> 32);
    uint64_t rest = (one_low & half) * (other_low >> 32) + (middle & half);
    uint64_t high = (one_low >> 32) * (other_low >> 32) + (middle >> 32) + (rest >> 32);
    high += one_low * (uint64_t)(other >> 64) + (uint64_t)(one >> 64) * other_low;
    return (unsigned __int128)high << 64 | (rest << 32 | (low & half));
}
