// Checks a file by the library, or lists its types, as the program does: `library_test text|json FORMAT|types FILE`. Each is
// asked for with no room first, then with a byte less than the answer has, of which nothing may be written, and then with
// room for it.
#include <pycheck.h>
#include <stdio.h>
#include <stdlib.h>
#include <string.h>

enum { MOST = 1048577, MARK = 0xEE };

static uint8_t bytes[MOST], none[1] = {MARK};
static size_t length;

static int is_untouched(const uint8_t *room, size_t size) {
  for (size_t i = 0; i < size; i++)
    if (room[i] != MARK) return 0;
  return 1;
}

static int are_same(pycheck_answer a, pycheck_answer b) {
  return a.kind == b.kind && a.length == b.length && a.errors == b.errors && a.dynamic == b.dynamic;
}

static pycheck_answer asked(char **words, uint8_t *room, size_t size) {
  bool json = !strcmp(words[1], "json");
  if (!strcmp(words[2], "types")) return pycheck_types(bytes, length, json, room, size);
  return pycheck_check(bytes, length, json, (uint32_t)atoi(words[2]), room, size);
}

int main(int count, char **words) {
  if (count != 4) return 9;
  FILE *file = fopen(words[3], "rb");
  if (!file) return 9;
  length = fread(bytes, 1, MOST, file);
  fclose(file);
  pycheck_answer first = asked(words, none, 0);
  if (none[0] != MARK) return 8;
  if (first.kind == PYCHECK_REFUSED) {
    fprintf(stderr, "refused %c%c at byte %llu\n", first.letter, first.digit, (unsigned long long)first.byte);
    return 2;
  }
  if (first.kind != PYCHECK_REPORTED) return 10 + (int)first.kind;
  uint8_t *room = malloc(first.length + 1);
  memset(room, MARK, first.length + 1);
  // A listing may be empty
  pycheck_answer second = asked(words, room, first.length ? first.length - 1 : 0);
  if (!are_same(first, second) || !is_untouched(room, first.length + 1)) return 7;
  pycheck_answer third = asked(words, room, first.length + 1);
  if (!are_same(first, third) || room[first.length] != MARK) return 6;
  fwrite(room, 1, first.length, stdout);
  free(room);
  return first.errors ? 1 : 0;
}
