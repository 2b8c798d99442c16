/* Sixteen bytes at a time: which of them are more than data. */
#ifndef BLOCKS_H
#define BLOCKS_H

#include <stdbool.h>
#include <string.h>
#ifdef __SSE2__
#include <emmintrin.h>
#endif

enum { BLOCK = 16 };

/* Of the bytes of a block, from the lowest bit on, those that are below a space, beyond
 * ASCII, a backslash, or one of four others. */
static inline unsigned find_special(const char *at, char one, char two, char three, char four) {
#ifdef __SSE2__
    __m128i bytes = _mm_loadu_si128((const __m128i *)at);
    __m128i found = _mm_cmplt_epi8(bytes, _mm_set1_epi8(' ')); /* signed: beyond ASCII, too */
    found = _mm_or_si128(found, _mm_cmpeq_epi8(bytes, _mm_set1_epi8('\\')));
    found = _mm_or_si128(found, _mm_cmpeq_epi8(bytes, _mm_set1_epi8(one)));
    found = _mm_or_si128(found, _mm_cmpeq_epi8(bytes, _mm_set1_epi8(two)));
    found = _mm_or_si128(found, _mm_cmpeq_epi8(bytes, _mm_set1_epi8(three)));
    found = _mm_or_si128(found, _mm_cmpeq_epi8(bytes, _mm_set1_epi8(four)));
    return (unsigned)_mm_movemask_epi8(found);
#else
    unsigned found = 0;
    for (unsigned place = 0; place < BLOCK; place++) {
        char byte = at[place];
        bool is_found = byte == '\\' || byte == one || byte == two || byte == three
                     || byte == four || (unsigned char)(byte - ' ') >= 0x80 - ' ';
        found |= (unsigned)is_found << place;
    }
    return found;
#endif
}

/* Copies bytes of any number, where both sides have a block of room after them. */
static inline void copy_short(char *to, const char *from, size_t length) {
    memcpy(to, from, BLOCK);
    if (length > BLOCK)
        memcpy(to + BLOCK, from + BLOCK, length - BLOCK);
}

#endif
