/* The eleven calls as C functions. `words_` is the proved library (crates/words); `plain_` is the same without checks (plain.c).
   A table is a pointer and its length in words. A reply is seven words. `add` alone takes a serial, and only a `has` that found its word gives one. */
#ifndef CALLS_H
#define CALLS_H

#include <stddef.h>
#include <stdint.h>

typedef struct {
    uint32_t answer, key, rows, moved, serial, width, count;
} Reply;

enum { DONE = 0, ALREADY_THERE = 7, NO_SUCH_WORD = 8 };
enum { KEY, LEFT, RIGHT, SERIAL, ROW }; /* the places in a row, and its length */

#ifdef __cplusplus
extern "C" {
#endif

#define READING(name) void name(uint32_t width, uint32_t count, const uint32_t *table, size_t length, Reply *reply)
#define READING_WORD(name) void name(uint32_t width, uint32_t count, const uint32_t *table, size_t length, uint32_t word, Reply *reply)
#define WRITING_WORD(name) void name(uint32_t width, uint32_t count, uint32_t *table, size_t length, uint32_t word, Reply *reply)
#define ADDING(name) \
    void name(uint32_t width, uint32_t count, uint32_t *table, size_t length, uint32_t word, uint32_t serial, Reply *reply)
#define LISTING(name) \
    void name(uint32_t width, uint32_t count, const uint32_t *table, size_t length, uint32_t *buffer, size_t room, Reply *reply)

READING_WORD(words_has);
READING_WORD(words_next);
READING_WORD(words_prev);
READING_WORD(words_gap);
READING(words_first);
READING(words_last);
READING(words_audit);
LISTING(words_list);
ADDING(words_add);
WRITING_WORD(words_del);
WRITING_WORD(words_new);

READING_WORD(plain_has);
READING_WORD(plain_next);
READING_WORD(plain_prev);
READING_WORD(plain_gap);
READING(plain_first);
READING(plain_last);
READING(plain_audit);
LISTING(plain_list);
ADDING(plain_add);
WRITING_WORD(plain_del);
WRITING_WORD(plain_new);

#ifdef __cplusplus
}
#endif
#endif
