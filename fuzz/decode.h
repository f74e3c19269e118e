/*
 * An input is text, so that seeds and kept inputs can be read. These functions make bytes of it. No text is wrong: what has
 * no meaning here stands for itself.
 *
 * In the text of a slice, or of an item of a list, $ begins one of:
 *   $$           a dollar                          $0a          the byte of two hexadecimal digits (small letters)
 *   $=N;         what there is, repeated up to N bytes; longer, it is cut
 *   $+N;         the last byte, repeated up to N bytes
 *   $*N;         (in a list) the whole item N times
 *   $%N;         a name of N bytes               $.           the end: what follows is dropped
 *   $~           the letters so far in the other case
 *   $N $A $H $X $P  (host) the next-hop, the expanded next-hop, the host, the expanded name, the host without its first label
 */
#ifndef DECODE_H
#define DECODE_H

#include <stddef.h>
#include <stdint.h>

/* More than the longest slice that the rules accept (65,536 bytes) and than a little over each limit. */
enum { LONGEST = 148 * 1024 };

struct text {
    const uint8_t *at;
    size_t left;
};

/* Bytes in memory that has room for LONGEST. */
struct bytes {
    uint8_t *at;
    size_t length;
};

/* The text up to the byte `end`, which is dropped, or all that is left. */
struct text take(struct text *rest, uint8_t end);
/* The next byte, or 0. */
uint8_t take_byte(struct text *rest);
/* The decimal digits that come next, as a number. */
uint64_t take_number(struct text *rest);

/* The same for a size. Large ones cost time, so they count only near a limit of the rules; others are taken modulo 600. */
uint64_t take_size(struct text *rest);

/* The same, with a semicolon after it. */
uint64_t take_count(struct text *rest);

/* The hexadecimal digits that come next (small letters), as a number. */
uint64_t take_hexadecimal(struct text *rest);

/* The number of a code: a digit is itself, a letter stands for a number that is no code, and any other byte for 0 to 3. */
uint64_t code_of(uint8_t byte);

/* Add at the end; what would pass LONGEST is dropped. */
void put(struct bytes *to, uint8_t byte);
void put_all(struct bytes *to, const uint8_t *from, size_t length);
/* A number of a list: four bytes, the highest first. */
void put_number(struct bytes *to, uint64_t number);
uint64_t number_at(const struct bytes *list, size_t i);

/*
 * Adds what the text stands for to an item that begins at `start`; `names` are next-hop, expanded next-hop, host and expanded
 * name, or NULL. Answers how often the item is meant.
 */
size_t expand(struct text from, struct bytes *to, size_t start, const struct bytes *names);

/* An output of some bytes, of the size that the line has: +N or -N from how many bytes are to be written, or N. */
void put_output(struct text line, size_t written, struct bytes *output);

/*
 * Changes to finished slices, three bytes each: the slice (a is the first), what is done, and a place or value (a digit is
 * itself). i, d: a number of the list one up, one down; m: one moved to it from the next; t: its top bit; w: the largest; n: a
 * number added at the end; l: the last number dropped; b, x: a byte added, dropped; f: a byte's low bit; e: all dropped.
 */
void edit(struct text edits, struct bytes *slices, size_t count);

#endif
