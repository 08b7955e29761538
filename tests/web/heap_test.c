// Allocates, grows and frees blocks at random, the same each time, and checks after each step that they do not overlap,
// begin at multiples of 16, are inside the memory, and still hold what was written into them; also where memory ends.
#include <stdint.h>
#include <stdio.h>
#include <stdlib.h>
#include <string.h>

#define HEAP_TEST
#include "heap.c"

enum { LIVE = 3000, STEPS = 100000, PAGES = 8192 };

unsigned char *region;
size_t region_pages, most_pages;

static struct Block {
  unsigned char *at;
  size_t bytes;
  unsigned char mark;
} live[LIVE];
static uint64_t state = 88172645463325252u;
static size_t wanting;

#define MUST(holds) \
  do { \
    if (!(holds)) { \
      printf("line %d: %s\n", __LINE__, #holds); \
      exit(1); \
    } \
  } while (0)

static uint64_t any(uint64_t below) {
  state ^= state << 13, state ^= state >> 7, state ^= state << 17;
  return state % below;
}

static size_t any_size(void) {
  switch (any(40)) {
  case 0: return any(1 << 20);
  case 1: return any(1 << 14);
  case 2: return (size_t)1 << any(18);
  default: return any(200);
  }
}

static void fill(struct Block *block, size_t from) {
  if (block->bytes > from) memset(block->at + from, block->mark, block->bytes - from);
}

static void look(const struct Block *block, size_t bytes) {
  MUST((uintptr_t)block->at % 16 == 0);
  MUST(block->at >= region && block->at + bytes <= region + region_pages * PAGE);
  for (size_t i = 0; i < bytes; i++) MUST(block->at[i] == block->mark);
}

static void take(struct Block *block) {
  size_t bytes = any_size();
  Taken taken = rattle_alloc(bytes, 16);
  MUST(taken.block);
  if (!taken.is_there) {
    wanting++;
    return;
  }
  *block = (struct Block){taken.block, bytes, (unsigned char)any(256)};
  fill(block, 0);
}

static void grow(struct Block *block) {
  size_t bytes = any_size(), kept = block->bytes < bytes ? block->bytes : bytes;
  Taken taken = rattle_realloc(block->at, kept, bytes, 16);
  if (!taken.is_there) {
    wanting++;
    look(block, block->bytes);
    return;
  }
  block->at = taken.block;
  look(block, kept);
  block->bytes = bytes;
  fill(block, kept);
}

static void give(struct Block *block) {
  look(block, block->bytes);
  memset(block->at, 0xEE, block->bytes);
  rattle_dealloc(block->at);
  block->at = 0;
}

static int by_address(const void *a, const void *b) {
  const struct Block *x = a, *y = b;
  return (x->at > y->at) - (x->at < y->at);
}

// No two allocated blocks share a byte, and no two have one address, even if they have no bytes.
static void look_at_all(void) {
  static struct Block sorted[LIVE];
  memcpy(sorted, live, sizeof live);
  qsort(sorted, LIVE, sizeof *sorted, by_address);
  for (int i = 0; i < LIVE; i++) {
    if (!sorted[i].at) continue;
    look(&sorted[i], sorted[i].bytes);
    if (i && sorted[i - 1].at) MUST(sorted[i - 1].at + (sorted[i - 1].bytes ? sorted[i - 1].bytes : 1) <= sorted[i].at);
  }
}

static void use(size_t most) {
  most_pages = most;
  heap_forget();
  memset(live, 0, sizeof live);
  for (int step = 1; step <= STEPS; step++) {
    struct Block *block = &live[any(LIVE)];
    if (!block->at) take(block);
    else if (any(3)) grow(block);
    else give(block);
    if (step % 5000 == 0) look_at_all();
  }
}

// A size that no memory has is refused, and no sum of sizes wraps around.
static void ask_too_much(void) {
  struct Block block = {rattle_alloc(100, 16).block, 100, 7};
  fill(&block, 0);
  for (int bits = 40; bits < 64; bits++) {
    size_t bytes = (size_t)1 << bits;
    MUST(!rattle_alloc(bytes, 16).is_there && !rattle_alloc(bytes - 1 + bytes, 16).is_there);
    MUST(!rattle_realloc(block.at, 100, bytes, 16).is_there && !heap_take(bytes + 1));
  }
  look(&block, 100);
}

// Each size has a class with room for it, and no class before that one has room.
static void look_at_classes(void) {
  for (size_t bytes = 1; bytes < 1 << 20; bytes++) {
    size_t class = class_of(bytes);
    MUST(size_of(class) >= bytes && size_of(class) % 16 == 0);
    MUST(size_of(class - 1) < bytes && size_of(class) <= bytes + bytes / 4 + 16);
  }
  MUST(class_of(LARGEST + sizeof(Head)) < CLASSES);
}

int main(void) {
  region = aligned_alloc(PAGE, (size_t)PAGES * PAGE);
  MUST(region);
  look_at_classes();
  use(PAGES);
  MUST(wanting == 0);
  ask_too_much();
  // All blocks were freed: as much can be allocated again
  for (int i = 0; i < 100; i++) {
    heap_forget();
    MUST(heap_take((size_t)PAGES / 2 * PAGE));
  }
  region_pages = 0;
  use(800);
  MUST(wanting > 1000 && wanting < STEPS / 2);
  printf("%d steps twice, %zu times memory was wanting\n", STEPS, wanting);
}
