// The memory of the module: what the compiled program asks for room, in blocks of powers of two from 32 bytes. A block stands after a head of 16
// bytes, which has its class; freed blocks wait in a list for each class. Memory grows by pages of the browser up to 4 GiB, and what is refused then
// the program answers as want of memory.
typedef unsigned long long u64;
typedef struct {
    u64 is_there;
    u64 place;
} Tried;

enum { FIRST_CLASS = 5, CLASSES = 40, HEAD = 16, PAGE_BITS = 16 };
static const u64 most = 1ULL << 32;

extern unsigned char __heap_base;
static u64 top, end;
static u64 freed[CLASSES];

static u64 *head_of(u64 place) { return (u64 *)(place - HEAD); }

// Has the memory reach up to a place. It grows by an eighth at least, so that it seldom grows.
static int reach(u64 want) {
    if (want > most) return 0;
    if (want <= end) return 1;
    u64 pages = (want - end + 65535) >> PAGE_BITS;
    u64 more = end >> 3 >> PAGE_BITS;
    if (pages < more) pages = more;
    u64 was = __builtin_wasm_memory_grow(0, pages);
    if (was == (u64)-1) return 0;
    end = (was + pages) << PAGE_BITS;
    return 1;
}

static u64 take(u64 bytes) {
    u64 class = FIRST_CLASS;
    while (class < CLASSES && (1ULL << class) < bytes) class++;
    if (class == CLASSES) return 0;
    u64 place = freed[class];
    if (place) {
        freed[class] = *(u64 *)place;
        return place;
    }
    if (!top) {
        top = ((u64)&__heap_base + 15) & ~15ULL;
        end = __builtin_wasm_memory_size(0) << PAGE_BITS;
    }
    if (!reach(top + HEAD + (1ULL << class))) return 0;
    place = top + HEAD;
    top = place + (1ULL << class);
    *head_of(place) = class;
    return place;
}

static void give(u64 place) {
    u64 class = *head_of(place);
    *(u64 *)place = freed[class];
    freed[class] = place;
}

// By these names the compiled program asks for memory. Each block is aligned to 16 bytes, which is as much as it asks for.
Tried rattle_alloc(u64 bytes, u64 align) {
    u64 place = take(bytes ? bytes : 1);
    return (Tried){place != 0, place};
}
Tried rattle_realloc(u64 place, u64 kept, u64 bytes, u64 align) {
    if (bytes <= 1ULL << *head_of(place)) return (Tried){1, place};
    u64 other = take(bytes);
    if (other) {
        __builtin_memmove((void *)other, (void *)place, kept);
        give(place);
    }
    return (Tried){other != 0, other};
}
void rattle_dealloc(u64 place) { give(place); }

// And by this one the page does, for the text and for what is printed.
__attribute__((export_name("page_room"))) u64 page_room(u64 bytes) { return take(bytes ? bytes : 1); }
