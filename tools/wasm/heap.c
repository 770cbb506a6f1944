/* The heap of the program in WebAssembly: rattle_alloc, rattle_realloc and rattle_dealloc, which a native program has over malloc.
 *
 * Blocks have classes: a class has one size, four classes to each power of two. A freed block waits in the list of its class, and serves
 * the next request of that class. What no list has is cut off the top of the memory, which grows as long as the engine allows it. So
 * memory is never given back, and a run ends with its memory. Each block is aligned to 16 octets, and has 16 octets before it, of which
 * the first 4 hold its class. */

#include "wasm.h"

enum { HEAD = 16, PAGE = 65536, CLASSES = 4 * 44, AHEAD = 16 };

/* No block is greater than this, so that no sum below wraps. */
static const u64 GREATEST = 1ull << 46;

extern u8 __heap_base; /* where the linker says that memory is free */

static u8 *top;             /* where the next block is cut off */
static u8 *free_of[CLASSES]; /* the first free block of each class; a free block begins with the address of the next one */
static u8 nothing[16];      /* where an answer points that is no block */

/* The size of a class, a multiple of 16: 16, 32, 48, 64, 80, 96, 112, 128, 160, 192, 224, 256, 320, .. */
static u64 size_of(u32 class) {
    if (class < 4)
        return 16 * (class + 1ull);
    return (16ull << (class / 4 - 1)) * (5 + class % 4);
}

/* The least class whose size is at least `size`. */
static u32 class_of(u64 size) {
    if (size <= 64)
        return size ? (u32)((size - 1) / 16) : 0;
    u32 bit = 63 - (u32)__builtin_clzll(size - 1); /* the highest of size - 1, at least 6 */
    return 4 * (bit - 5) + (u32)((size - 1) >> (bit - 2) & 3);
}

/* Whether the memory reaches to `end`, if need be after it has grown: by some pages more than are asked for, or by just those. */
static int reaches(u8 *end) {
    u64 has = __builtin_wasm_memory_size(0), wants = ((u64)end + PAGE - 1) / PAGE;
    if (wants <= has)
        return 1;
    __builtin_wasm_memory_grow(0, wants - has + AHEAD);
    if (wants > __builtin_wasm_memory_size(0))
        __builtin_wasm_memory_grow(0, wants - has);
    /* (what memory_grow answers is not asked: a failure is -1 in one form of the module and 2^32 - 1 in the other) */
    return wants <= __builtin_wasm_memory_size(0);
}

static u32 *class_at(u8 *block) { return (u32 *)(block - HEAD); }

/* A block of at least `size` octets, or null. */
static u8 *new_block(u64 size) {
    if (size > GREATEST)
        return 0;
    u32 class = class_of(size);
    u8 *block = free_of[class];
    if (block) {
        free_of[class] = *(u8 **)block;
        return block;
    }
    if (!top)
        top = (u8 *)(((u64)&__heap_base + 15) & ~15ull);
    u64 whole = HEAD + size_of(class);
    if (!reaches(top + whole))
        return 0;
    block = top + HEAD;
    top += whole;
    *class_at(block) = class;
    return block;
}

static struct tried answer(u8 *block) {
    return block ? (struct tried){1, block} : (struct tried){0, nothing};
}

struct tried rattle_alloc(u64 size, u64 align) {
    return answer(new_block(size ? size : align));
}

struct tried rattle_realloc(u8 *block, u64 kept, u64 size, u64 align) {
    size = size ? size : align;
    u64 room = size_of(*class_at(block));
    if (size <= room)
        return answer(block);
    u8 *moved = new_block(size);
    if (!moved)
        return answer(0);
    __builtin_memcpy(moved, block, kept < room ? kept : room);
    rattle_dealloc(block);
    return answer(moved);
}

void rattle_dealloc(u8 *block) {
    u32 class = *class_at(block);
    *(u8 **)block = free_of[class];
    free_of[class] = block;
}
