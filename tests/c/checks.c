/* The exported checks, called from C. Every expected number and place was worked out by hand from the paper's table. */
#include "fence.h"

void *memset(void *to, int byte, size_t length);

/* The article's Fig. 1: kinds at 0, productions at 6, 14, 26, 40 and 47, the trailer at 54. */
static const uint8_t fig1[66] = {2, 0, 4, 5, 4, 5, 0, 1, 1, 2, 0, 9, 1, 11, 1, 1, 2, 4, 1, 9, 3, 11, 8, 0, 10, 2, 1, 1, 2, 5, 1, 9, 3,
                                 9, 3, 11, 8, 0, 10, 2, 2, 0, 2, 1, 0, 3, 2, 2, 0, 2, 1, 2, 3, 0, 1, 0, 3, 0, 5, 0, 0, 0, 54, 0, 48, 0};

/* A start over a kind that may have one child of its own kind (1), none (2) or two (3). */
static const uint8_t tower[32] = {0, 0, 8, 0, 0, 1, 1, 0, 1, 1, 1, 0, 1, 0, 0, 1, 2, 1, 1, 0, 1, 0, 2, 0, 4, 0, 0, 0, 20, 0, 16, 0};

static unsigned failures, checks;

static void expect(const char *what, uint64_t answer, unsigned number, unsigned place) {
    checks++;
    if (answer == number * UINT64_C(65536) + place && UNCHANCYRA_NUMBER(answer) == number && UNCHANCYRA_PLACE(answer) == place) return;
    failures++;
    printf("%s: %u at %u, not %u at %u\n", what, UNCHANCYRA_NUMBER(answer), UNCHANCYRA_PLACE(answer), number, place);
}

static void expect_book(const char *what, const uint8_t *book, size_t length, unsigned number, unsigned place) {
    expect(what, check_book(book, length), number, place);
    expect(what, check_sheet(book, length, (const uint8_t *)"", 0), number == 0 ? 20 : number, number == 0 ? 0 : place);
}

/* Fig. 1 with one byte changed, or two. */
static void changed(const char *what, size_t at, uint8_t byte, size_t at2, uint8_t byte2, unsigned number, unsigned place) {
    uint8_t book[sizeof fig1];
    memcpy(book, fig1, sizeof fig1);
    book[at] = byte;
    book[at2] = byte2;
    expect_book(what, book, sizeof book, number, place);
}

static void books(void) {
    uint8_t shifted[67] = {0};
    expect_book("Fig. 1", fig1, 66, 0, 0);
    expect_book("the tower's book", tower, 32, 0, 0);
    expect_book("no byte", fig1, 0, 1, 0);
    expect_book("11 bytes", fig1, 11, 1, 0);
    expect_book("12 bytes of Fig. 1", fig1, 12, 2, 0);
    expect_book("the last byte gone", fig1, 65, 2, 0);
    memcpy(shifted + 1, fig1, 66);
    expect_book("a byte in front", shifted, 67, 4, 0);
    changed("edition 2", 54, 2, 54, 2, 2, 0);
    changed("edition 257", 55, 1, 55, 1, 2, 0);
    changed("no kind", 56, 0, 56, 0, 3, 0);
    changed("33 kinds", 56, 33, 56, 33, 3, 0);
    changed("no production", 58, 0, 58, 0, 3, 0);
    changed("65 productions", 58, 65, 58, 65, 3, 0);
    changed("start 3 of 3 kinds", 60, 3, 60, 3, 3, 0);
    changed("a distance to the kinds", 62, 55, 62, 55, 4, 0);
    changed("a distance to the productions", 64, 47, 64, 47, 4, 0);
    changed("a count of pairs one too many", 49, 3, 49, 3, 4, 0);
    changed("nine settings", 2, 9, 2, 9, 5, 1);
    changed("an inherited setting of the start", 1, 1, 1, 1, 5, 0);
    changed("a mask bit at A", 5, 21, 5, 21, 5, 2);
    changed("a left kind 3", 47, 3, 47, 3, 6, 4);
    changed("a child 3", 16, 3, 16, 3, 6, 1);
    changed("the start as a child", 8, 0, 8, 0, 6, 0);
    changed("no such occurrence", 43, 5, 43, 5, 7, 3);
    changed("an inherited setting worked out at slot 0", 43, 0, 43, 0, 7, 3);
    changed("a pair twice", 45, 1, 46, 0, 7, 3);
    changed("a bad pair, and a bad child after it", 43, 5, 47, 3, 6, 4);
    changed("no production of kind 2", 40, 1, 47, 1, 8, 2);
}

/* A kind without settings and a production of it, and zeros up to a trailer whose distances, as two bytes hold them, are given. */
static void far_trailer(const char *what, size_t trailer, uint16_t kinds, uint16_t productions) {
    static uint8_t book[100000];
    const uint16_t fields[6] = {1, 1, 1, 0, kinds, productions};
    memset(book, 0, sizeof book);
    for (unsigned i = 0; i < 6; i++) {
        book[trailer + 2 * i] = (uint8_t)fields[i];
        book[trailer + 2 * i + 1] = (uint8_t)(fields[i] >> 8);
    }
    expect_book(what, book, trailer + 12, 4, 0);
}

/* No distance reaches so far back: they are right only where 65,536 is taken for 0. */
static void long_books(void) {
    far_trailer("65,548 bytes", 65536, 0, 65534);
    far_trailer("100,000 bytes", 99988, 34452, 34450);
}

static void on_fig1(const char *what, const char *sheet, size_t length, unsigned number, unsigned place) {
    expect(what, check_sheet(fig1, 66, (const uint8_t *)sheet, length), number, place);
}

static void sheets(void) {
    on_fig1("0 1 3", "\0\1\3", 3, 0, 0);
    on_fig1("0 2 4", "\0\2\4", 3, 0, 0);
    on_fig1("0 1", "\0\1", 2, 22, 2);
    on_fig1("0 1 3 3", "\0\1\3\3", 4, 22, 3);
    on_fig1("0 1 3 9", "\0\1\3\11", 4, 21, 3);
    on_fig1("0 9", "\0\11", 2, 21, 1);
    on_fig1("3", "\3", 1, 22, 0);
    on_fig1("5", "\5", 1, 21, 0);
    on_fig1("0 255", "\0\377", 2, 21, 1);
    on_fig1("0 3", "\0\3", 2, 22, 1);
    on_fig1("no byte", "", 0, 20, 0);
}

static void levels(void) {
    uint8_t sheet[65];
    memset(sheet, 1, sizeof sheet);
    sheet[0] = 0;
    expect("64 levels, and one more due", check_sheet(tower, 32, sheet, 64), 22, 64);
    sheet[64] = 2;
    expect("65 levels", check_sheet(tower, 32, sheet, 65), 23, 64);
    sheet[64] = 4;
    expect("no such production at level 65", check_sheet(tower, 32, sheet, 65), 21, 64);
    sheet[64] = 0;
    expect("another kind at level 65", check_sheet(tower, 32, sheet, 65), 22, 64);
    sheet[63] = 2;
    expect("64 levels", check_sheet(tower, 32, sheet, 64), 0, 0);
}

/* A whole tree of so many levels, two children a node, in preorder. */
static uint8_t *grow(uint8_t *at, unsigned height) {
    *at++ = height == 1 ? 2 : 3;
    return height == 1 ? at : grow(grow(at, height - 1), height - 1);
}

static void lengths(void) {
    static uint8_t sheet[4097];
    grow(sheet + 1, 12);
    expect("4,095 bytes", check_sheet(tower, 32, sheet, 4095), 22, 4095);
    expect("4,096 bytes", check_sheet(tower, 32, sheet, 4096), 0, 0);
    expect("4,097 bytes", check_sheet(tower, 32, sheet, 4097), 20, 0);
}

/* An empty slice may be NULL. */
static void nulls(void) {
    expect("no book", unchancyra_check_book(0, 0), 1, 0);
    expect("no book, no sheet", unchancyra_check_sheet(0, 0, 0, 0), 1, 0);
    expect("no sheet", unchancyra_check_sheet(fig1, 66, 0, 0), 20, 0);
    expect("a sheet without a book", unchancyra_check_sheet(0, 0, fig1, 3), 1, 0);
}

static uint32_t seed = 1;

static uint32_t below(uint32_t bound) {
    seed = seed * 1664525u + 1013904223u;
    return (uint32_t)(((uint64_t)seed * bound) >> 32);
}

/* Damaged at random: the answer has the form it must have, the sheet's begins with the book's, and a second call gives the same. */
static void damage(void) {
    for (unsigned turn = 0; turn < 20000; turn++) {
        uint8_t book[66], sheet[8];
        size_t length = 60 + below(7), bytes = below(9);
        memcpy(book, fig1, 66);
        for (unsigned i = below(4); i != 0; i--) book[below(66)] = (uint8_t)(below(2) != 0 ? below(12) : below(256));
        for (unsigned i = 0; i < 8; i++) sheet[i] = (uint8_t)below(6);
        uint64_t of_book = check_book(book, length);
        uint64_t of_sheet = check_sheet(book, length, sheet, bytes);
        unsigned number = UNCHANCYRA_NUMBER(of_book), then = UNCHANCYRA_NUMBER(of_sheet);
        checks++;
        int fits = number <= 8 && UNCHANCYRA_PLACE(of_book) < 64;
        fits = fits && (of_book == 0 ? of_sheet == 0 || (20 <= then && then <= 23 && UNCHANCYRA_PLACE(of_sheet) <= bytes) : of_sheet == of_book);
        fits = fits && check_sheet(book, length, sheet, bytes) == of_sheet;
        if (fits) continue;
        failures++;
        printf("damaged book, turn %u: %u at %u, then %u at %u\n", turn, number, UNCHANCYRA_PLACE(of_book), then, UNCHANCYRA_PLACE(of_sheet));
    }
}

int main(void) {
    build_fence(&book_fence);
    build_fence(&sheet_fence);
    books();
    long_books();
    sheets();
    levels();
    lengths();
    nulls();
    damage();
    printf("%u checks from C, %u failed\n", checks, failures);
    return failures != 0;
}
