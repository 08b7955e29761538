// Compares numbers of 128 bits with those of the host's compiler.
#include <stdint.h>
#include <stdio.h>
#include <stdlib.h>

#define RUNTIME_TEST
#include "runtime.c"

static uint64_t state = 88172645463325252u;

static uint64_t any(void) {
  state ^= state << 13, state ^= state >> 7, state ^= state << 17;
  return state % 4 ? state : state % 8 ? 0 : UINT64_MAX;
}

int main(void) {
  for (int i = 0; i < 1000000; i++) {
    unsigned __int128 x = (unsigned __int128)any() << 64 | any(), y = (unsigned __int128)any() << 64 | any();
    int bits = i % 128;
    if ((unsigned __int128)test__multi3((__int128)x, (__int128)y) != x * y) return 1;
    if ((unsigned __int128)test__ashlti3((__int128)x, bits) != x << bits) return 2;
    if ((unsigned __int128)test__lshrti3((__int128)x, bits) != x >> bits) return 3;
  }
  puts("1000000 numbers are the same");
}
