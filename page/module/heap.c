// The memory of the module: in place of the C library's, three functions over the linear memory, for one thread. Nothing proves it.
//
// A block has one of some hundred sizes, four to each power of two, and behind a head of 16 bytes that names its size stand its bytes, at a
// multiple of 16. A block that is given back waits in a list for the next one of its size.

typedef unsigned char byte;
typedef unsigned long size;

struct tried { size ok; size place; };

struct block { size kind; struct block *next; };

#define HEAD 16
#define PAGE 65536ul
#define KINDS 136
#define MOST (1ul << 33)

extern byte __heap_base;

static struct block *given_back[KINDS];
static size top, end;

// The least kind whose blocks have so many bytes: 0 for up to 16, and then four to each power of two.
static size kind_of(size bytes) {
    if (bytes <= 16)
        return 0;
    size last = bytes - 1;
    size power = 63 - __builtin_clzl(last);
    return (power - 4) * 4 + ((last >> (power - 2)) & 3) + 1;
}

static size size_of(size kind) {
    if (kind == 0)
        return 16;
    size power = (kind - 1) / 4 + 4;
    return (((kind - 1) % 4 + 5) << (power - 2)) + 15 & ~15ul;
}

// Makes room for so many bytes behind the last block, in steps of a quarter of what there is. Whether there is room.
static int grow(size bytes) {
    if (top == 0) {
        top = ((size)&__heap_base + 15) & ~15ul;
        end = __builtin_wasm_memory_size(0) * PAGE;
    }
    if (bytes <= end - top)
        return 1;
    size pages = (bytes - (end - top) + PAGE - 1) / PAGE;
    size quarter = end / PAGE / 4;
    if (pages < quarter && __builtin_wasm_memory_grow(0, quarter) != -1ul) {
        end += quarter * PAGE;
        return 1;
    }
    if (__builtin_wasm_memory_grow(0, pages) == -1ul)
        return 0;
    end += pages * PAGE;
    return 1;
}

static struct block *head_of(void *place) {
    return (struct block *)((byte *)place - HEAD);
}

// A block of so many bytes, or null.
static void *take(size bytes) {
    if (bytes > MOST)
        return 0;
    size kind = kind_of(bytes);
    struct block *block = given_back[kind];
    if (block) {
        given_back[kind] = block->next;
    } else {
        if (!grow(HEAD + size_of(kind)))
            return 0;
        block = (struct block *)top;
        block->kind = kind;
        top += HEAD + size_of(kind);
    }
    return (byte *)block + HEAD;
}

static void give_back(void *place) {
    if (!place)
        return;
    struct block *block = head_of(place);
    block->next = given_back[block->kind];
    given_back[block->kind] = block;
}

static struct tried tried(void *place) {
    struct tried answer = { place != 0, (size)place };
    return answer;
}

// What the proved code calls: each alignment that it asks for divides 16.

struct tried rattle_alloc(size bytes, size alignment) {
    return tried(take(bytes));
}

void rattle_dealloc(void *place) {
    give_back(place);
}

// The first `kept` bytes are as they were; where there is no memory, the block is too.
struct tried rattle_realloc(void *place, size kept, size bytes, size alignment) {
    size has = size_of(head_of(place)->kind);
    if (bytes <= has && (has <= 64 || has / 2 < bytes))
        return tried(place);
    void *other = take(bytes);
    if (other) {
        __builtin_memcpy(other, place, kept < bytes ? kept : bytes);
        give_back(place);
    }
    return tried(other);
}

// What the page calls: blocks for what it hands over, and how much memory there is.

__attribute__((export_name("page_room"))) void *page_room(size bytes) {
    return take(bytes);
}

__attribute__((export_name("page_free"))) void page_free(void *place) {
    give_back(place);
}

__attribute__((export_name("page_size"))) size page_size(void) {
    return __builtin_wasm_memory_size(0) * PAGE;
}
