/* heap.c: what the library calls, for WebAssembly: its three allocation functions, and products and quotients of 128 bits.
 *
 * A chunk is a header of 16 bytes and the memory behind it, whose address is a multiple of 16. Its whole size is one of four in each
 * doubling (64, 80, 96, 112, 128, 160 ..), so that rounding wastes less than a fifth. The freed chunks of a size are a list. Once
 * nothing is allocated the heap is empty again, so no call finds it in pieces. It never returns pages to the host, which WebAssembly
 * can't do: a host that wants them back makes another instance.
 *
 * build/wasm.py compiles this for an address space of 64 bits; binaryen then lowers the module to 32 bits.
 */
typedef __UINT64_TYPE__ uint64_t; /* the toolchain's clang comes without headers */
#define NULL ((void *)0)
#define LOW UINT64_C(0xffffffff)
#define UINT64_C(number) number##ull

#define LARGEST UINT64_C(0xf0000000) /* the memory has addresses of 32 bits once it is lowered */
#define HEADER 16
#define ALIGNMENT 16
#define LEAST 32
#define LISTS 128
#define PAGE 65536
#define FAILED LOW /* what the lowered memory.grow returns; without lowering it is -1 of 64 bits */

struct chunk {
    uint64_t size; /* with the header */
    struct chunk *next; /* of a list of freed chunks */
};

/* As the library expects it: whether there is memory, and where. */
struct allocation {
    uint64_t is_done;
    void *memory;
};

extern unsigned char __heap_base; /* the linker's: where the data end */
static struct chunk *freed[LISTS];
static uint64_t top, allocations; /* the end of what was ever allocated; how many chunks are allocated */

static void empty_heap(void) {
    for (int i = 0; i < LISTS; i++) freed[i] = NULL;
    top = ((uint64_t)&__heap_base + ALIGNMENT - 1) / ALIGNMENT * ALIGNMENT;
}

/* Rounds the size of a chunk up, and returns the number of the list of this size. A size that was rounded stays. LEAST <= *size. */
static int round_up(uint64_t *size) {
    *size = (*size + ALIGNMENT - 1) / ALIGNMENT * ALIGNMENT;
    int highest = 63 - __builtin_clzll(*size - 1), shift = highest - 2;
    uint64_t quarters = ((*size - 1) >> shift) + 1; /* 5 to 8 */
    *size = quarters << shift;
    return highest * 4 + (int)quarters - 5;
}

static int is_there(uint64_t end) {
    uint64_t pages = __builtin_wasm_memory_size(0), needed = (end + PAGE - 1) / PAGE;
    return needed <= pages || __builtin_wasm_memory_grow(0, needed - pages) < FAILED;
}

static const struct allocation NONE = {0, (void *)ALIGNMENT};

struct allocation rattle_alloc(uint64_t size, uint64_t alignment) {
    if (size > LARGEST || alignment > ALIGNMENT) return NONE;
    uint64_t whole = size + HEADER < LEAST ? LEAST : size + HEADER;
    int list = round_up(&whole);
    if (!top) empty_heap();
    struct chunk *chunk = freed[list];
    if (chunk) {
        freed[list] = chunk->next;
    } else {
        if (top + whole > LARGEST || !is_there(top + whole)) return NONE;
        chunk = (struct chunk *)top;
        chunk->size = whole;
        top += whole;
    }
    allocations++;
    return (struct allocation){1, (unsigned char *)chunk + HEADER};
}

void rattle_dealloc(void *memory) {
    if (--allocations == 0) {
        empty_heap();
        return;
    }
    struct chunk *chunk = (struct chunk *)((unsigned char *)memory - HEADER);
    uint64_t whole = chunk->size;
    int list = round_up(&whole);
    chunk->next = freed[list];
    freed[list] = chunk;
}

struct allocation rattle_realloc(void *memory, uint64_t size, uint64_t new_size, uint64_t alignment) {
    struct chunk *chunk = (struct chunk *)((unsigned char *)memory - HEADER);
    if (new_size <= LARGEST && new_size + HEADER <= chunk->size) return (struct allocation){1, memory};
    struct allocation larger = rattle_alloc(new_size, alignment);
    if (!larger.is_done) return larger;
    __builtin_memcpy(larger.memory, memory, size < new_size ? size : new_size);
    rattle_dealloc(memory);
    return larger;
}

/* For the host: memory for its blocks and results, or 0 if there is none. */
uint64_t exifnorm_malloc(uint64_t size) {
    struct allocation allocation = rattle_alloc(size, ALIGNMENT);
    return allocation.is_done ? (uint64_t)allocation.memory : 0;
}

void exifnorm_free(uint64_t memory) { rattle_dealloc((void *)memory); }

/* How many allocations nobody has freed: none but the host's between calls. */
uint64_t exifnorm_allocations(void) { return allocations; }

/* The compiler calls these by their names. */
typedef unsigned __int128 u128;

u128 __multi3(u128 a, u128 b) {
    uint64_t a_low = (uint64_t)a, b_low = (uint64_t)b;
    uint64_t a0 = a_low & LOW, a1 = a_low >> 32, b0 = b_low & LOW, b1 = b_low >> 32;
    uint64_t low = a0 * b0, left = a0 * b1, right = a1 * b0;
    uint64_t middle = (low >> 32) + (left & LOW) + (right & LOW);
    uint64_t high = a1 * b1 + (left >> 32) + (right >> 32) + (middle >> 32);
    high += a_low * (uint64_t)(b >> 64) + (uint64_t)(a >> 64) * b_low;
    return (u128)high << 64 | middle << 32 | (low & LOW);
}

u128 __udivti3(u128 dividend, u128 divisor) {
    if (dividend >> 64 == 0 && divisor >> 64 == 0) return (uint64_t)dividend / (uint64_t)divisor;
    u128 quotient = 0, rest = 0;
    for (int i = 0; i < 128; i++) { /* digit by digit, as by hand */
        int carry = (int)(rest >> 127);
        rest = rest << 1 | dividend >> 127;
        dividend <<= 1;
        quotient <<= 1;
        if (carry || rest >= divisor) {
            rest -= divisor;
            quotient |= 1;
        }
    }
    return quotient;
}
