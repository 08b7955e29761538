/* The proved check as a library for C, on Linux for x86-64: release/libpycheck.a.gz, unpacked. docs/WEB.md says what is
   proved of it, and what it asks of its caller. It takes its memory by `malloc`, and gives all of it back. */
#ifndef PYCHECK_H
#define PYCHECK_H

#include <stdbool.h>
#include <stddef.h>
#include <stdint.h>

#ifdef __cplusplus
extern "C" {
#endif

enum pycheck_kind {
  PYCHECK_REPORTED = 0,       /* there is a report, or a listing of types */
  PYCHECK_REFUSED = 1,        /* the bytes spell no module of the profile */
  PYCHECK_OUT_OF_MEMORY = 2,  /* an allocation failed */
  PYCHECK_UNKNOWN_FORMAT = 3, /* the number names no format */
};

/* What a check came to. A number that a kind does not have is 0. */
typedef struct pycheck_answer {
  uint32_t kind;
  uint8_t letter, digit; /* of a refusal: its code, in ASCII */
  uint64_t byte;         /* of a refusal: the byte that it names, from 0 */
  uint64_t length;       /* of a report or a listing: how many bytes it has */
  uint64_t errors;       /* how many errors the module's report lists */
  uint64_t dynamic;      /* how many dynamic places the module's report lists */
} pycheck_answer;

/* Checks a module, and puts its report into a room, as JSON or as text, in the format 1 or 2. Where the length of the
   report is more than the size of the room, nothing is put there: call again with more room. Without a report the room
   stays as it is. Neither pointer may be null, even where there are no bytes; the room lies apart from the module. */
pycheck_answer pycheck_check(const uint8_t *bytes, size_t length, bool json, uint32_t format, uint8_t *room, size_t size);

/* Lists the types of the expressions and of the bound names of a module, and puts the listing into a room, as JSON or as
   text. All else is as for `pycheck_check`, but that there is no kind PYCHECK_UNKNOWN_FORMAT. */
pycheck_answer pycheck_types(const uint8_t *bytes, size_t length, bool json, uint8_t *room, size_t size);

#ifdef __cplusplus
}
#endif

#endif
