/* A plain union-find over the whole tree, to measure the sheet call against.
 *
 * It reads the input of the program `groups` (sheet length, sheet, book) on standard input, ties
 * the two ends of every dependence of every node, and numbers the groups in the order of document
 * 01: the root's settings, then at each node the children's settings from left to right. Over
 * built tables the numbers are therefore those of `groups`, one for one. Parents are u16, paths are
 * halved, and the lower number becomes the parent.
 *
 * It trusts its input: only what `groups` accepts may be given to it. That is part of the
 * comparison, since the sheet call checks book, sheet and tables each time.
 *
 *   unionfind numbers          prints each node's group numbers, one line for each node
 *   unionfind each TIMES       does it so many times, the book read each time; prints nodes, settings, groups
 *   unionfind once TIMES       does it so many times, the book read once
 */
#include <stddef.h>
#include <stdint.h>

/* Declared here, so that no header of a C library is needed. */
int printf(const char *format, ...);
int putchar(int byte);
long atol(const char *word);
long read(int file, void *to, size_t length);

enum { MOST_INPUT = 37262, MOST_NODES = 4096, MOST_SETTINGS = 8 * MOST_NODES, UNNUMBERED = 65535 };

struct production {
    uint8_t left, k, d;
    const uint8_t *children, *pairs;
};

struct book {
    uint8_t settings[32];
    struct production productions[64];
    uint8_t start;
};

struct tree {
    uint16_t nodes, settings;
    uint16_t first[MOST_NODES];       /* a node's first setting */
    uint16_t children[MOST_NODES][4]; /* positions of its children */
};

static uint16_t parent[MOST_SETTINGS], number[MOST_SETTINGS];

static void read_book(const uint8_t *bytes, size_t length, struct book *book)
{
    const uint8_t *trailer = bytes + length - 12, *at = bytes;
    unsigned kinds = trailer[2], productions = trailer[4];
    book->start = trailer[6];
    for (unsigned kind = 0; kind < kinds; kind++, at += 2)
        book->settings[kind] = at[0];
    for (unsigned place = 0; place < productions; place++) {
        struct production *production = &book->productions[place];
        production->left = at[0];
        production->k = at[1];
        production->children = at + 2;
        production->d = at[2 + production->k];
        production->pairs = at + 3 + production->k;
        at = production->pairs + 2 * production->d;
    }
}

/* Gives the position after the subtree at `node`. */
static uint16_t read_node(const struct book *book, const uint8_t *sheet, struct tree *tree, uint16_t node)
{
    const struct production *production = &book->productions[sheet[node]];
    uint16_t next = node + 1;
    tree->first[node] = tree->settings;
    tree->settings += book->settings[production->left];
    for (unsigned child = 0; child < production->k; child++) {
        tree->children[node][child] = next;
        next = read_node(book, sheet, tree, next);
    }
    return next;
}

static uint16_t find(uint16_t setting)
{
    while (parent[setting] != setting)
        setting = parent[setting] = parent[parent[setting]];
    return setting;
}

static uint16_t setting_of(const struct tree *tree, uint16_t node, uint8_t occurrence)
{
    uint8_t slot = occurrence >> 3;
    return tree->first[slot == 0 ? node : tree->children[node][slot - 1]] + (occurrence & 7);
}

static void tie_node(const struct production *production, const struct tree *tree, uint16_t node)
{
    for (unsigned pair = 0; pair < production->d; pair++) {
        uint16_t to = find(setting_of(tree, node, production->pairs[2 * pair]));
        uint16_t from = find(setting_of(tree, node, production->pairs[2 * pair + 1]));
        if (to < from)
            parent[from] = to;
        else
            parent[to] = from;
    }
}

/* Numbers the settings of one node, taking new numbers from `next`. */
static uint16_t number_node(uint16_t first, uint8_t settings, uint16_t *groups, uint16_t next)
{
    for (uint16_t setting = first; setting < first + settings; setting++) {
        uint16_t root = find(setting);
        if (number[root] == UNNUMBERED)
            number[root] = next++;
        groups[setting] = number[root];
    }
    return next;
}

/* The number of groups; each setting's group goes to `groups`, by node and then by setting. */
static uint16_t number_groups(const struct book *book, const uint8_t *sheet, struct tree *tree, uint16_t *groups)
{
    tree->settings = 0;
    tree->nodes = read_node(book, sheet, tree, 0);
    for (unsigned setting = 0; setting < tree->settings; setting++) {
        parent[setting] = setting;
        number[setting] = UNNUMBERED;
    }
    for (uint16_t node = 0; node < tree->nodes; node++)
        tie_node(&book->productions[sheet[node]], tree, node);
    uint16_t next = number_node(0, book->settings[book->start], groups, 0);
    for (uint16_t node = 0; node < tree->nodes; node++) {
        const struct production *production = &book->productions[sheet[node]];
        for (unsigned child = 0; child < production->k; child++) {
            uint8_t settings = book->settings[production->children[child]];
            next = number_node(tree->first[tree->children[node][child]], settings, groups, next);
        }
    }
    return next;
}

static void print_numbers(const struct book *book, const uint8_t *sheet, const struct tree *tree, const uint16_t *groups)
{
    for (uint16_t node = 0; node < tree->nodes; node++) {
        uint8_t settings = book->settings[book->productions[sheet[node]].left];
        for (uint8_t setting = 0; setting < settings; setting++)
            printf(setting == 0 ? "%u" : " %u", groups[tree->first[node] + setting]);
        putchar('\n');
    }
}

static size_t read_input(uint8_t *input)
{
    size_t length = 0;
    long got;
    while ((got = read(0, input + length, MOST_INPUT - length)) > 0)
        length += got;
    return length;
}

int main(int count, char **words)
{
    static uint8_t input[MOST_INPUT];
    static struct book book;
    static struct tree tree;
    static uint16_t groups[MOST_SETTINGS];
    size_t length = read_input(input);
    long times = count == 3 ? atol(words[2]) : 1;
    if (length < 2 || count < 2 || times < 1) {
        printf("usage: unionfind numbers|each TIMES|once TIMES <input of groups\n");
        return 2;
    }
    size_t sheet_length = input[0] + 256 * input[1];
    const uint8_t *sheet = input + 2, *bytes = sheet + sheet_length;
    int each = words[1][0] == 'e';
    uint16_t found = 0;
    for (long turn = 0; turn < times; turn++) {
        if (each || turn == 0)
            read_book(bytes, length - 2 - sheet_length, &book);
        found = number_groups(&book, sheet, &tree, groups);
    }
    if (words[1][0] == 'n')
        print_numbers(&book, sheet, &tree, groups);
    else
        printf("%u %u %u\n", tree.nodes, tree.settings, found);
    return 0;
}
