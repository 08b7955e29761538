// Functions that compiled code calls for operations that the processor lacks: moves of memory, and numbers of 128 bits.
// Trusted; tests/web/runtime_test.c compares the numbers with those of the host's compiler.

typedef __SIZE_TYPE__ size;
typedef unsigned long long half;

// A number of 128 bits, and its halves.
typedef union {
  __int128 whole;
  struct {
    half low, high;
  } part;
} Wide;

#ifndef RUNTIME_TEST
// With bulk memory each of these is one instruction.
void *memcpy(void *to, const void *from, size bytes) { return __builtin_memcpy(to, from, bytes); }
void *memmove(void *to, const void *from, size bytes) { return __builtin_memmove(to, from, bytes); }
void *memset(void *to, int byte, size bytes) { return __builtin_memset(to, byte, bytes); }
#define NAME(name) name
#else
#define NAME(name) test##name
#endif

// Returns the whole product of two halves.
static Wide product(half a, half b) {
  half a_low = (unsigned)a, a_high = a >> 32, b_low = (unsigned)b, b_high = b >> 32;
  half low = a_low * b_low, middle = a_high * b_low + (low >> 32), other = a_low * b_high + (unsigned)middle;
  Wide found;
  found.part.low = (other << 32) | (unsigned)low;
  found.part.high = a_high * b_high + (middle >> 32) + (other >> 32);
  return found;
}

// Returns the product of two numbers, in 128 bits.
__int128 NAME(__multi3)(__int128 x, __int128 y) {
  Wide a = {.whole = x}, b = {.whole = y}, found = product(a.part.low, b.part.low);
  found.part.high += a.part.high * b.part.low + a.part.low * b.part.high;
  return found.whole;
}

// Returns a number shifted to the left by fewer than 128 bits.
__int128 NAME(__ashlti3)(__int128 x, int bits) {
  Wide a = {.whole = x};
  if (bits & 64) {
    a.part.high = a.part.low << (bits & 63);
    a.part.low = 0;
  } else if (bits) {
    a.part.high = a.part.high << bits | a.part.low >> (64 - bits);
    a.part.low <<= bits;
  }
  return a.whole;
}

// Returns a number shifted to the right by fewer than 128 bits, with zeros from the left.
__int128 NAME(__lshrti3)(__int128 x, int bits) {
  Wide a = {.whole = x};
  if (bits & 64) {
    a.part.low = a.part.high >> (bits & 63);
    a.part.high = 0;
  } else if (bits) {
    a.part.low = a.part.low >> bits | a.part.high << (64 - bits);
    a.part.high >>= bits;
  }
  return a.whole;
}
