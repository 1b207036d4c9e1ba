/* The exported checks on fenced slices: what stands beside a slice can't be read, and the slice itself can't be written. */
#ifndef FENCE_H
#define FENCE_H

#include "unchancyra.h"

/* Declared here, so that no header of a C library is needed. */
int printf(const char *format, ...);
void *memcpy(void *to, const void *from, size_t length);
void *mmap(void *at, size_t length, int protection, int flags, int file, long offset);
int mprotect(void *at, size_t length, int protection);

enum { NONE = 0, READ = 1, WRITE = 2, PRIVATE_ANONYMOUS = 0x22, PAGE = 4096, ROOM = 25 * PAGE };

/* What no check may answer. */
#define UNLIKE UINT64_C(0xffffffffffffffff)

/* Where in its fence a slice stands: a read before it faults at the front, a read past it at the back. */
enum end { FRONT, BACK };

/* Room between two pages that can't be read. */
struct fence {
    uint8_t *start;
};

static struct fence book_fence, sheet_fence;

static void build_fence(struct fence *fence) {
    fence->start = (uint8_t *)mmap(0, ROOM + 2 * PAGE, NONE, PRIVATE_ANONYMOUS, -1, 0) + PAGE;
}

static const uint8_t *within(struct fence *fence, enum end end, const uint8_t *bytes, size_t length) {
    uint8_t *at = end == FRONT ? fence->start : fence->start + ROOM - length;
    mprotect(fence->start, ROOM, READ | WRITE);
    if (length != 0) memcpy(at, bytes, length);
    mprotect(fence->start, ROOM, READ);
    return at;
}

static uint64_t book_at(enum end end, const uint8_t *book, size_t length) {
    return unchancyra_check_book(within(&book_fence, end, book, length), length);
}

static uint64_t sheet_at(enum end end, const uint8_t *book, size_t book_length, const uint8_t *sheet, size_t sheet_length) {
    return unchancyra_check_sheet(within(&book_fence, end, book, book_length), book_length, within(&sheet_fence, end, sheet, sheet_length), sheet_length);
}

/* The answer at both ends, which has to be one. */
static uint64_t check_book(const uint8_t *book, size_t length) {
    uint64_t answer = book_at(FRONT, book, length);
    return book_at(BACK, book, length) == answer ? answer : UNLIKE;
}

static uint64_t check_sheet(const uint8_t *book, size_t book_length, const uint8_t *sheet, size_t sheet_length) {
    uint64_t answer = sheet_at(FRONT, book, book_length, sheet, sheet_length);
    return sheet_at(BACK, book, book_length, sheet, sheet_length) == answer ? answer : UNLIKE;
}

#endif
