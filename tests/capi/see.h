/* What the parts of this test share. */
#ifndef SEE_H
#define SEE_H

#include <stddef.h>
#include <stdint.h>

/* Counts a check; one that fails is told. */
void see(int holds, const char *what);

/* fields.c: every field of every struct, over the sample book. */
void every_field(const uint8_t *book, size_t book_len);

/* pieces.c: strict and lenient, over the sample book. */
void every_piece(const uint8_t *book, size_t book_len);

/* pending.c: the table of requests. */
void every_request(void);

/* stream.c: a stream fed in parts. */
void every_stream(void);

/* hexes.c: why a hex number was unreadable. */
void every_reason(void);

/* layout.c: where each field of each struct lies, beside the file of that name. */
void every_offset(const char *path);

#endif
