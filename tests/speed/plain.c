/* The calls in plain C without checks. On a sound table the replies are those of the library. A table that is not sound, a word that is
   too wide or an `add` to a full table makes the behaviour undefined. Only `audit` looks for damage, because that is its task. docs/FORMAT.md,
   "The calls", says what each call does.

   `bits` is the word shifted so that its next deciding bit is on top, so a turn is one shift. No way tracks its depth: on a sound table a
   row at depth W holds the word itself and has no links, so the way stops there. */
#include "calls.h"

#include <string.h>

#define UNUSED(x) (void)(x)

static inline uint32_t aligned(uint32_t word, uint32_t width)
{
    return word << (32 - width);
}

static inline void answer(Reply *reply, uint32_t number, uint32_t key, uint32_t rows, uint32_t width, uint32_t count)
{
    *reply = (Reply){number, key, rows, 0, 0, width, count};
}

READING_WORD(plain_has)
{
    UNUSED(length);
    uint32_t bits = aligned(word, width), rows = 0, found = NO_SUCH_WORD, serial = 0;
    const uint32_t *row = table;
    while (count != 0) {
        rows++;
        if (row[KEY] >= word) {
            if (row[KEY] == word) {
                found = DONE;
                serial = row[SERIAL];
            }
            break;
        }
        uint32_t link = row[LEFT + (bits >> 31)];
        if (link == 0)
            break;
        bits <<= 1;
        row = table + ROW * (size_t)link;
    }
    *reply = (Reply){found, 0, rows, 0, serial, width, count};
}

READING_WORD(plain_next)
{
    UNUSED(length);
    uint32_t bits = aligned(word, width), rows = 0, aside = 0;
    const uint32_t *row = table;
    while (count != 0) {
        rows++;
        if (row[KEY] > word) {
            answer(reply, DONE, row[KEY], rows, width, count);
            return;
        }
        uint32_t side = bits >> 31, link = row[LEFT + side], skipped = row[RIGHT] & (side - 1);
        if (skipped != 0)
            aside = skipped; /* the deepest right link where the way turned left */
        if (link == 0)
            break;
        bits <<= 1;
        row = table + ROW * (size_t)link;
    }
    if (aside == 0)
        answer(reply, NO_SUCH_WORD, 0, rows, width, count);
    else
        answer(reply, DONE, table[ROW * (size_t)aside], rows + 1, width, count);
}

/* The greatest word of a row's part: follows the right link, else the left link. */
static inline uint32_t greatest(const uint32_t *table, uint32_t at, uint32_t *rows)
{
    for (;;) {
        const uint32_t *row = table + ROW * (size_t)at;
        ++*rows;
        at = row[RIGHT] != 0 ? row[RIGHT] : row[LEFT];
        if (at == 0)
            return row[KEY];
    }
}

READING_WORD(plain_prev)
{
    UNUSED(length);
    uint32_t bits = aligned(word, width), rows = 0, side = 0;
    const uint32_t *row = table, *below = NULL;
    while (count != 0) {
        rows++;
        if (row[KEY] >= word)
            break;
        below = row;
        side = bits >> 31;
        uint32_t link = row[LEFT + side];
        if (link == 0)
            break;
        bits <<= 1;
        row = table + ROW * (size_t)link;
    }
    if (below == NULL) {
        answer(reply, NO_SUCH_WORD, 0, rows, width, count);
        return;
    }
    uint32_t key = below[KEY];
    if (side != 0 && below[LEFT] != 0)
        key = greatest(table, below[LEFT], &rows);
    answer(reply, DONE, key, rows, width, count);
}

/* One way serves for both neighbours. `prev` and `next` read different rows only after its end. */
READING_WORD(plain_gap)
{
    UNUSED(length);
    uint32_t bits = aligned(word, width), rows = 0, side = 0, aside = 0, above = 0, nearest = UINT32_MAX;
    const uint32_t *row = table, *below = NULL;
    if (count == 0) {
        answer(reply, NO_SUCH_WORD, 0, 0, width, count);
        return;
    }
    for (;;) {
        rows++;
        if (row[KEY] >= word) {
            above = row[KEY];
            break;
        }
        below = row;
        side = bits >> 31;
        uint32_t link = row[LEFT + side], skipped = row[RIGHT] & (side - 1);
        if (skipped != 0)
            aside = skipped;
        if (link == 0)
            break;
        bits <<= 1;
        row = table + ROW * (size_t)link;
    }
    if (above == word) {
        answer(reply, DONE, 0, rows, width, count);
        return;
    }
    rows *= 2;
    if (above == 0 && aside != 0) {
        above = table[ROW * (size_t)aside];
        rows++;
    }
    if (above != 0)
        nearest = above - word;
    if (below != NULL) {
        uint32_t key = below[KEY];
        if (side != 0 && below[LEFT] != 0)
            key = greatest(table, below[LEFT], &rows);
        if (word - key < nearest)
            nearest = word - key;
    }
    answer(reply, DONE, nearest, rows, width, count);
}

READING(plain_first)
{
    UNUSED(length);
    if (count == 0)
        answer(reply, NO_SUCH_WORD, 0, 0, width, count);
    else
        answer(reply, DONE, table[0], 1, width, count);
}

READING(plain_last)
{
    UNUSED(length);
    uint32_t rows = 0;
    if (count == 0) {
        answer(reply, NO_SUCH_WORD, 0, 0, width, count);
        return;
    }
    uint32_t key = greatest(table, 0, &rows);
    answer(reply, DONE, key, rows, width, count);
}

ADDING(plain_add)
{
    UNUSED(length);
    uint32_t bits = aligned(word, width), rows = 0, key = word;
    uint32_t *row = table, *link = NULL;
    while (count != 0) {
        rows++;
        if (row[KEY] >= word)
            break;
        link = row + LEFT + (bits >> 31);
        if (*link == 0)
            goto placed;
        bits <<= 1;
        row = table + ROW * (size_t)*link;
    }
    if (count != 0 && row[KEY] == word) {
        row[SERIAL] = serial;
        answer(reply, ALREADY_THERE, 0, rows, width, count);
        return;
    }
    /* the push: the row takes the word and its serial, and its old key goes down by its own bits, with its serial */
    for (uint32_t depth = rows + 31 - width; count != 0; depth++) {
        uint32_t old = row[KEY], old_serial = row[SERIAL];
        row[KEY] = key;
        row[SERIAL] = serial;
        key = old;
        serial = old_serial;
        link = row + LEFT + (key << depth >> 31);
        if (*link == 0)
            break;
        row = table + ROW * (size_t)*link;
        rows++;
    }
placed:
    row = table + ROW * (size_t)count;
    row[KEY] = key;
    row[LEFT] = 0;
    row[RIGHT] = 0;
    row[SERIAL] = serial;
    if (link != NULL)
        *link = count;
    answer(reply, DONE, 0, rows, width, count + 1);
}

WRITING_WORD(plain_del)
{
    UNUSED(length);
    uint32_t bits = aligned(word, width), rows = 0, moved = 0;
    uint32_t *row = table, *link = NULL;
    while (count != 0) {
        rows++;
        if (row[KEY] >= word)
            break;
        link = row + LEFT + (bits >> 31);
        if (*link == 0)
            break;
        bits <<= 1;
        row = table + ROW * (size_t)*link;
    }
    if (count == 0 || row[KEY] != word) {
        answer(reply, NO_SUCH_WORD, 0, rows, width, count);
        return;
    }
    /* the stretch, left first: each row takes key and serial of the row below; the last row is the hole */
    for (;;) {
        uint32_t *down = row[LEFT] != 0 ? row + LEFT : row + RIGHT;
        if (*down == 0)
            break;
        link = down;
        uint32_t *below = table + ROW * (size_t)*down;
        row[KEY] = below[KEY];
        row[SERIAL] = below[SERIAL];
        row = below;
        rows++;
    }
    uint32_t hole = link == NULL ? 0 : *link, last = count - 1;
    if (link != NULL)
        *link = 0;
    uint32_t *end = table + ROW * (size_t)last;
    if (hole != last) {
        /* the second way: the key of the last row has the bits of its path, so no other key needs to be read */
        uint32_t path = aligned(end[KEY], width), at = 0, *to = NULL;
        for (moved = 1; at != last; moved++) {
            to = table + ROW * (size_t)at + LEFT + (path >> 31);
            path <<= 1;
            at = *to;
        }
        row[KEY] = end[KEY];
        row[LEFT] = end[LEFT];
        row[RIGHT] = end[RIGHT];
        row[SERIAL] = end[SERIAL];
        *to = hole;
    }
    end[KEY] = 0;
    end[LEFT] = 0;
    end[RIGHT] = 0;
    end[SERIAL] = 0;
    *reply = (Reply){DONE, 0, rows, moved, 0, width, last};
}

/* The number of rows in a row's part, or -1 if the part has damage. `low` is the least key that may come next, because keys strictly increase. */
static int64_t sound_rows(const uint32_t *table, uint32_t count, uint32_t at, uint32_t bits, uint64_t path, uint64_t *low)
{
    if (at >= count)
        return -1;
    const uint32_t *row = table + ROW * (size_t)at;
    uint64_t key = row[KEY];
    if (key < *low || key >> bits != path)
        return -1;
    *low = key + 1;
    if (bits == 0)
        return row[LEFT] == 0 && row[RIGHT] == 0 ? 1 : -1;
    int64_t rows = 1;
    for (uint32_t side = 0; side < 2; side++) {
        if (row[LEFT + side] == 0)
            continue;
        int64_t more = sound_rows(table, count, row[LEFT + side], bits - 1, path * 2 + side, low);
        if (more < 0)
            return -1;
        rows += more;
    }
    return rows;
}

READING(plain_audit)
{
    UNUSED(length);
    uint64_t low = 0;
    int sound = count == 0 || sound_rows(table, count, 0, width, 0, &low) == count;
    answer(reply, sound ? DONE : 4, 0, sound ? count : 0, width, count);
}

LISTING(plain_list)
{
    UNUSED(length);
    UNUSED(room);
    uint32_t waiting[33], n = 0, at = 0;
    if (count != 0) {
        for (;;) {
            const uint32_t *row = table + ROW * (size_t)at;
            *buffer++ = row[KEY];
            if (row[LEFT] != 0) {
                at = row[LEFT];
                if (row[RIGHT] != 0)
                    waiting[n++] = row[RIGHT];
            } else if (row[RIGHT] != 0) {
                at = row[RIGHT];
            } else if (n != 0) {
                at = waiting[--n];
            } else {
                break;
            }
        }
    }
    answer(reply, DONE, 0, count, width, count);
}

WRITING_WORD(plain_new)
{
    UNUSED(width);
    UNUSED(count);
    size_t capacity = length / ROW < 65535 ? length / ROW : 65535;
    memset(table, 0, capacity * ROW * sizeof *table);
    answer(reply, DONE, 0, 0, word, 0);
}
