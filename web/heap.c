// The heap of the page: blocks of size classes over a memory that grows, until it may grow no more. `heap_forget` frees
// all blocks at once. The heap replaces the C library's `malloc` and is trusted; tests/web/heap_test.c tests it.

#ifdef HEAP_TEST
#include "heap_test.h"
#else
// Returns how many pages the memory has; and asks for more, and returns whether there were so many.
#define memory_pages() __builtin_wasm_memory_size(0)
#define memory_grow(pages) (__builtin_wasm_memory_grow(0, pages) != (size)-1)
#define memory_base ((size)&__heap_base)
extern unsigned char __heap_base;
#endif

typedef __SIZE_TYPE__ size;

// The answer to the proved code: whether there is a block, and where. A missing block has an address too.
typedef struct {
  size is_there;
  void *block;
} Taken;

// The head before each block, in 16 bytes, so that blocks begin at multiples of 16.
typedef struct {
  size class;
  size unused;
} Head;

// A freed block, with the next one of its class.
typedef struct Free {
  struct Free *next;
} Free;

enum { PAGE = 65536, SMALL = 64, STEP = 16, GROWTH = 64, CLASSES = 256 };
// No block may be larger, so that no sum of sizes wraps around.
#define LARGEST ((size)1 << 40)

static size top, end;
static Free *given_back[CLASSES];
static unsigned char nowhere[16];

// Returns the class of a size: one for each 16 bytes up to 64, and then four for each power of two.
static size class_of(size wanted) {
  if (wanted <= SMALL) return (wanted + STEP - 1) / STEP;
  size class = SMALL / STEP, room = SMALL;
  while (room * 2 < wanted) room *= 2, class += 4;
  return class + (wanted - room + room / 4 - 1) / (room / 4);
}

// Returns how many bytes a block of a class has, its head included.
static size size_of(size class) {
  if (class <= SMALL / STEP) return class * STEP;
  size above = class - SMALL / STEP - 1, room = (size)SMALL << above / 4;
  return room + room / 4 * (above % 4 + 1);
}

// Makes the memory end at least so many bytes after the top. Returns whether it does.
static int reach(size wanted) {
  if (end - top >= wanted) return 1;
  size pages = (wanted - (end - top) + PAGE - 1) / PAGE;
  size more = pages < GROWTH ? GROWTH : pages;
  if (!memory_grow(more)) {
    more = pages;
    if (!memory_grow(more)) return 0;
  }
  end += more * PAGE;
  return 1;
}

// Frees all blocks. The memory stays as large as it is.
void heap_forget(void) {
  top = (memory_base + 15) & ~(size)15;
  end = memory_pages() * PAGE;
  for (size class = 0; class < CLASSES; class++) given_back[class] = 0;
}

// Returns a block of so many bytes, or none if the memory may grow no more. One of no bytes has room too, since a freed
// block holds the next one.
void *heap_take(size bytes) {
  if (!top) heap_forget();
  if (bytes > LARGEST) return 0;
  size class = class_of((bytes ? bytes : 1) + sizeof(Head));
  Free *block = given_back[class];
  if (block) {
    given_back[class] = block->next;
    return block;
  }
  size room = size_of(class);
  if (!reach(room)) return 0;
  Head *head = (Head *)top;
  head->class = class;
  top += room;
  return head + 1;
}

static Head *head_of(void *block) { return (Head *)block - 1; }

static void give_back(void *block) {
  Free *free = block;
  size class = head_of(block)->class;
  free->next = given_back[class];
  given_back[class] = free;
}

static Taken told(void *block) { return (Taken){block != 0, block ? block : nowhere}; }

// Returns a block of so many bytes. No alignment beyond 16 is asked for, which each block has.
Taken rattle_alloc(size bytes, size alignment) {
  (void)alignment;
  return told(heap_take(bytes));
}

// Frees a block.
void rattle_dealloc(void *block) {
  if (block) give_back(block);
}

// Returns a block with room for so many bytes, the first `kept` copied; if there is none, the old one is unchanged.
Taken rattle_realloc(void *block, size kept, size bytes, size alignment) {
  (void)alignment;
  if (bytes > LARGEST) return told(0);
  if (bytes + sizeof(Head) <= size_of(head_of(block)->class)) return told(block);
  void *larger = heap_take(bytes);
  if (!larger) return told(0);
  __builtin_memcpy(larger, block, kept);
  give_back(block);
  return told(larger);
}
