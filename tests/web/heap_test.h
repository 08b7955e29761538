// The memory of the heap in the test: pages of the host, with a limit on how many it may ask for.
#include <stddef.h>

extern unsigned char *region;
extern size_t region_pages, most_pages;

#define memory_base ((size)region)
#define memory_pages() ((size)region / PAGE + region_pages)
#define memory_grow(more) (region_pages + (more) <= most_pages && (region_pages += (more), 1))
