/*
 * Unchancyra for C: the checks of a grammar book and of a tree sheet.
 *
 * Link libservice.a (x86-64 Linux), which include/archive makes. Of the C library it calls memcpy and memset alone; it needs no
 * heap and no start-up call.
 *
 * A slice is a pointer and a length: `book` points to `book_length` readable bytes, `sheet` to `sheet_length`.
 * The caller owns them before, during and after the call. The call only reads them, writes nothing anywhere but its own
 * stack, and keeps no pointer: once it has returned, the bytes may be changed or freed. Nothing may change them while it runs.
 * The two slices may overlap. Calls share no state and may run at the same time in several threads.
 * With length 0 nothing is read through the pointer, which may then be NULL; NULL with another length is not allowed.
 * No object in C is longer than PTRDIFF_MAX bytes, and neither may a slice be.
 *
 * Every answer is one number: 0 where all is accepted, else the refusal's number times 65,536 plus its place. One is given for
 * every content of the slices: there is no input on which a call fails, stops or does not return. A call takes less than
 * 16 KiB of stack (80 bytes for each level of the tree that it stands in, at most 65 of them, and 1.2 KiB besides).
 */
#ifndef UNCHANCYRA_H
#define UNCHANCYRA_H

#include <stddef.h>
#include <stdint.h>

#ifdef __cplusplus
extern "C" {
#endif

/* Refusals 1 to 8 of a grammar book. */
uint64_t unchancyra_check_book(const uint8_t *book, size_t book_length);

/* Refusals 1 to 8 of the book, then 20 to 23 of the sheet. */
uint64_t unchancyra_check_sheet(const uint8_t *book, size_t book_length, const uint8_t *sheet, size_t sheet_length);

/* A refusal's number and place, from an answer. */
#define UNCHANCYRA_NUMBER(answer) ((unsigned)((answer) >> 16))
#define UNCHANCYRA_PLACE(answer) ((unsigned)((answer)&0xffffu))

#ifdef __cplusplus
}
#endif

#endif
