/* The words of the lines of scripts, rows.txt and channels.txt, and those of their answers. */
#ifndef WORDS_H
#define WORDS_H

#include "dma330.h"

enum { MOST_BYTES = 16384, MOST_TEXT = 1 << 16, MOST_SEGMENTS = 80, MOST_CODES = 80, MOST_WORD = 4096 };

/* Returns whether dma330.h has a code. All are numbers from 0 down, above -MOST_CODES. */
int is_code(int32_t code);

/* The arguments of a line. */
typedef struct arguments {
    uint8_t channel;
    uint32_t numbers[3];
    int is_fill;
    uint32_t from; /* of a fill: the address of its byte */
    dma330_segment src[MOST_SEGMENTS];
    dma330_segment dst[MOST_SEGMENTS];
    size_t src_count;
    size_t dst_count;
    int32_t wait;
    int32_t signal;
    uint8_t bytes[MOST_BYTES];
    size_t len;
    char text[MOST_TEXT];
    size_t text_len;
} arguments;

/* Ends the program because a line of the file is wrong. */
void bad_line(const char *why, const char *what);

/* Reads the next word, which is empty at the end. */
void next_word(const char **at, char *word, size_t room);

/* Reads the arguments of a shape: c is a channel, k a kind of mark, n a number, o one or 1 if it is missing, r a segment
 * (two numbers), b bytes, t text, s a list of sources, f the address of a fill, d the word 'to', a list of destinations,
 * and events, and T a copy (sd) or the word 'fill' and a fill (fd). */
void read_arguments(const char *shape, const char *at, arguments *a);

/* Returns whether a code is one of the words. */
int has_word(const char *words, const char *code);

/* An answer that is being written. */
typedef struct answer {
    char *at;
    size_t room;
} answer;

/* Adds text to an answer, as printf formats it. */
void append(answer *to, const char *format, ...);

/* Adds bytes as pairs of digits, more than 16 equal ones as XX*N. */
void append_bytes(answer *to, const uint8_t *bytes, size_t len);

/* Adds a name of dma330.h as scripts write that of a code, NoChannel for NO_CHANNEL, or of a turn, moved for MOVED. */
void append_camel(answer *to, const char *name);
void append_lower(answer *to, const char *name);

#endif
