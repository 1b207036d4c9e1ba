/*
 * The exported checks, asked as the program trial is: a run of requests on standard input, each 4 bytes of length, then the
 * call and its arguments, an argument 4 bytes of length and its bytes. Calls 1 and 2 are answered, without counts; what is
 * no request of these is refused with 30.
 */
#include "fence.h"

int fflush(void *file);
long read(int file, void *to, size_t length);

/* The rooms of trial. A request that is longer than all of them has a byte too many somewhere. */
enum { BOOK = 40000, SHEET = 5000, REQUEST = 1 + 4 + BOOK + 4 + SHEET };

#define MALFORMED (UINT64_C(30) * 65536)

struct slice {
    const uint8_t *start;
    size_t length;
};

static size_t number(const uint8_t *at) { return at[0] | (size_t)at[1] << 8 | (size_t)at[2] << 16 | (size_t)at[3] << 24; }

/* So many bytes of standard input; fewer at its end. */
static size_t taken(uint8_t *to, size_t length) {
    size_t got = 0;
    while (got < length) {
        long more = read(0, to + got, length - got);
        if (more <= 0) break;
        got += (size_t)more;
    }
    return got;
}

/* The next request; an empty one in place of one that is cut off or too long. Whether there was any. */
static int next(struct slice *request) {
    static uint8_t bytes[REQUEST];
    uint8_t head[4];
    size_t got = taken(head, 4), left = got == 4 ? number(head) : 0;
    request->start = bytes;
    request->length = left <= REQUEST ? left : 0;
    while (left != 0) {
        size_t part = left < REQUEST ? left : REQUEST;
        if (taken(bytes, part) < part) {
            request->length = 0;
            break;
        }
        left -= part;
    }
    return got != 0;
}

/* Takes an argument of at most `room` bytes off what is left of a request; whether one is there. */
static int argument(struct slice *rest, size_t room, struct slice *found) {
    if (rest->length < 4) return 0;
    found->start = rest->start + 4;
    found->length = number(rest->start);
    if (found->length > room || found->length > rest->length - 4) return 0;
    rest->start = found->start + found->length;
    rest->length -= 4 + found->length;
    return 1;
}

static uint64_t answer(struct slice request) {
    if (request.length == 0) return MALFORMED;
    uint8_t call = request.start[0];
    struct slice rest = {request.start + 1, request.length - 1}, book, sheet = {0, 0};
    if (call != 1 && call != 2) return MALFORMED;
    if (!argument(&rest, BOOK, &book)) return MALFORMED;
    if (call == 2 && !argument(&rest, SHEET, &sheet)) return MALFORMED;
    if (rest.length != 0) return MALFORMED;
    if (call == 1) return check_book(book.start, book.length);
    return check_sheet(book.start, book.length, sheet.start, sheet.length);
}

/* Each answer is out before the next call, so that the runner sees which one did not return. */
int main(void) {
    struct slice request;
    build_fence(&book_fence);
    build_fence(&sheet_fence);
    while (next(&request)) {
        uint64_t word = answer(request);
        if (word == 0) {
            printf("ok\n.\n");
        } else {
            printf("refused %lu %lu\n.\n", word >> 16, word & 0xffff);
        }
        fflush(0);
    }
    return 0;
}
