/*
 * DER as text. Blanks and line ends stand for nothing, and so does what has no meaning here.
 *   0a          the byte of two hexadecimal digits (small letters)
 *   30(  )      an element of this tag, with what stands between as its contents; its length is made right
 *   "text"      the bytes that decode.h makes of the text, in which $$ stands for a dollar and $22 for a quote
 *   +N;         the last byte, repeated until the contents have N bytes
 * After the closing bracket may stand, for that element alone:
 *   #  a length of one byte more than it needs      %  the indefinite form, with its end
 *   >  a length one too large                       <  a length one too small
 *   ^  a tag of two bytes                           *N;  the element N times
 */
#ifndef DER_H
#define DER_H

#include "decode.h"

/* Adds the bytes that the text stands for; `names` as in expand. */
void put_der(struct text from, struct bytes *to, const struct bytes *names);

#endif
