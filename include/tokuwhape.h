/* The planner of a bag ring or rack: the calls of the proved archive target/staticlib/libtokuwhape.a, which `tools/archive tokuwhape` makes.
 *
 * A ring is its number of bins n, a table of node records, a book of mark words and the count of groups in the book. So is a rack, which has
 * two ends. It is planned as a ring with one bin more, the hidden end bin n + 1, which no list and no book may name: its node table and its
 * tree text are those of that ring. `layout`, beside n, tells a call which of the two it is lent.
 *
 * The caller owns the tables and lends them to each call, each as a pointer and its count of elements; a node table is counted in 16-bit
 * numbers, 257 to a record. A pointer is never null, not even that of a list with no elements, and a table that is written overlaps no
 * other. Longer tables than the sizes below may be lent: what stands past the stated size is never touched. A thread that makes calls has a
 * stack of 1 MiB or more.
 *
 * Every call but tokuwhape_name and tokuwhape_group returns TOKUWHAPE_DONE or the number of a refusal, and writes *value: when done, the
 * call's own answer; on a refusal the place in the list or the byte where it names one, else 0. A refusal leaves every table as it was. No
 * call returns 4: a list may be empty. */
#ifndef TOKUWHAPE_H
#define TOKUWHAPE_H

#include <stddef.h>
#include <stdint.h>

#define TOKUWHAPE_RING 0            /* the layout of a ring */
#define TOKUWHAPE_RACK 1            /* the layout of a rack; so is any other number but 0 */

#define TOKUWHAPE_BINS 256          /* bins of the largest ring; the largest rack has one less */
#define TOKUWHAPE_RECORDS 256       /* records of a node table */
#define TOKUWHAPE_ITEMS 255         /* items of a node record */
#define TOKUWHAPE_NUMBERS 65792     /* 16-bit numbers of a node table, 257 to a record */
#define TOKUWHAPE_GROUPS 96         /* groups of a book, and places of a conflict list */
#define TOKUWHAPE_WORDS 384         /* mark words of a book, four to a group */
#define TOKUWHAPE_TEXT 2048         /* bytes for a tree text to be written */
#define TOKUWHAPE_FILE 65536        /* bytes of the longest ring file */

#ifdef __cplusplus
extern "C" {
#endif

/* ---- What a call returns. Written by tools/outer.py. */

enum tokuwhape_answer {
    TOKUWHAPE_DONE = 0,
    TOKUWHAPE_RING_SIZE = 1,        /* a count of bins is 0 or above 256 */
    TOKUWHAPE_SHORT_TABLE = 2,      /* a lent table is too short */
    TOKUWHAPE_NOT_IN_FORM = 3,      /* the node table or the book is not in form, or the count of groups is above 96 */
    TOKUWHAPE_OUTSIDE_RING = 5,     /* a bin of the list is 0 or above n; *value: the place, from 0 */
    TOKUWHAPE_REPEATED = 6,         /* a bin stands in the list a second time; *value: the place, from 0 */
    TOKUWHAPE_BOOK_FULL = 7,        /* the book has 96 groups already */
    TOKUWHAPE_IMPOSSIBLE = 8,       /* no order of the tree has the group consecutive, or no order is allowed by both trees */
    TOKUWHAPE_NO_SUCH_GROUP = 9,    /* the group number is 0 or above the count of groups */
    TOKUWHAPE_NOT_CONSECUTIVE = 10, /* the book's group is not consecutive in the standard order */
    TOKUWHAPE_RING_FILE = 11,       /* the ring file is malformed; *value: the byte, from 0 */
    TOKUWHAPE_TREE_TEXT = 12,       /* the tree text is malformed; *value: the byte, from 0 */
    TOKUWHAPE_BIN_COUNTS = 13,      /* the two counts of bins differ, or one is of a ring and one of a rack */
    TOKUWHAPE_NO_AIM = 14,          /* the book's group is empty, so it has no aim */
    TOKUWHAPE_RACK_SIZE = 15,       /* a rack has 256 bins */
    TOKUWHAPE_ZERO_SEED = 16,       /* the seed of a test load is 0 */
    TOKUWHAPE_GROUP_COUNT = 17      /* the count of groups of a test load is 0 or above 96 */
};

/* ---- What a call returns: end. */

/* A node record, 257 numbers: docs/NODE-TABLE.md. */
typedef struct {
    uint16_t kind;                  /* 0 unused, 1 a P-node, 2 a C-node, which has three items or more */
    uint16_t count;                 /* how many items */
    uint16_t items[TOKUWHAPE_ITEMS]; /* a bin, or 256 plus the number of a record; then zeros */
} tokuwhape_node;

/* Compiles only where a table of records is its numbers, with nothing between them. */
typedef char tokuwhape_node_size[TOKUWHAPE_RECORDS * sizeof(tokuwhape_node) == TOKUWHAPE_NUMBERS * sizeof(uint16_t) ? 1 : -1];

/* ---- The calls. Written by tools/outer.py. */

/* Opens a ring or a rack of n bins: its node table gets the fresh tree, and its book is emptied. *value: the count of groups, 0. */
uint8_t tokuwhape_open(uint8_t layout, size_t n, tokuwhape_node *nodes, size_t numbers, uint64_t *book, size_t words, size_t *value);

/* Joins the list's group, which may be empty: the node table gets the new tree, and the group takes the book's next place. *value: the new
 * count of groups. */
uint8_t tokuwhape_join(uint8_t layout, size_t n, tokuwhape_node *nodes, size_t numbers, uint64_t *book, size_t words, size_t count,
                       const uint16_t *list, size_t length, size_t *value);

/* Answers as joining the list's group would, and changes nothing. */
uint8_t tokuwhape_trial(uint8_t layout, size_t n, const tokuwhape_node *nodes, size_t numbers, const uint64_t *book, size_t words,
                        size_t count, const uint16_t *list, size_t length, size_t *value);

/* Writes the standard order, of a ring from bin 1, of a rack the first allowed list, to the first n places of order. *value: n. */
uint8_t tokuwhape_order(uint8_t layout, size_t n, const tokuwhape_node *nodes, size_t numbers, uint16_t *order, size_t places,
                        size_t *value);

/* Finds the aim of the book's group with this number from 1, the middle of its run in the standard order: of two middle places, counted
 * from 0, the even one; on a ring, of the last place and place 0, place 0. An empty group has none. *value: the bin. */
uint8_t tokuwhape_aim(uint8_t layout, size_t n, const tokuwhape_node *nodes, size_t numbers, const uint64_t *book, size_t words,
                      size_t count, size_t group, size_t *value);

/* Writes the numbers of the book's groups in conflict with the list's group, rising, then zeros, to the first 96 places of conflicts: none
 * where the whole book and the group can be consecutive together. *value: how many numbers. */
uint8_t tokuwhape_conflict(uint8_t layout, size_t n, const uint64_t *book, size_t words, size_t count, const uint16_t *list, size_t length,
                           uint16_t *conflicts, size_t places, size_t *value);

/* Writes the tree text, of a rack that of its ring of n + 1 bins, then zeros, to the first 2,048 bytes. *value: the length of the text. */
uint8_t tokuwhape_write(uint8_t layout, size_t n, const tokuwhape_node *nodes, size_t numbers, uint8_t *bytes, size_t places,
                        size_t *value);

/* Reads a tree text for n bins, of a rack for its ring of n + 1, lent without zeros after it: the node table gets its tree, a P-node where
 * the text has a C-node with two items, and the book is emptied. *value: the count of groups, 0. */
uint8_t tokuwhape_read(uint8_t layout, size_t n, tokuwhape_node *nodes, size_t numbers, uint64_t *book, size_t words, const uint8_t *text,
                       size_t length, size_t *value);

/* Writes the tree that allows exactly the orders allowed by the tree of n bins and by that of m to the third node table; a rack is taken as
 * its ring of n + 1 bins. *value: 0. */
uint8_t tokuwhape_intersect(uint8_t layout, size_t n, const tokuwhape_node *nodes, size_t nodes_numbers, uint8_t layout2, size_t m,
                            const tokuwhape_node *other, size_t other_numbers, tokuwhape_node *third, size_t third_numbers, size_t *value);

/* Writes the ring file of the test load of n bins with this seed and so many groups, then zeros, to the first 65,536 bytes. All its groups
 * can hang together. *value: the length of the file. */
uint8_t tokuwhape_test_load(size_t n, uint32_t seed, size_t groups, uint8_t *bytes, size_t places, size_t *value);

/* Reads a ring file through. *value: how many names, which is n; *head: the bytes of the names line with its line end; *lines: how many
 * lines of values. Where it is refused (11), *value is the byte, and *head and *lines are 0. Call it first: the two below refuse
 * nothing. */
uint8_t tokuwhape_scan(const uint8_t *file, size_t length, size_t *head, size_t *lines, size_t *value);

/* Returns the length, 1 to 8, of the name of bin k + 1 in a file that tokuwhape_scan accepts with more than k names. *start: its first
 * byte. Of any bytes and any k it is word k, from 0, of the first line, parted at spaces; 0 and *start 0 where there is no such word. */
size_t tokuwhape_name(const uint8_t *file, size_t length, size_t k, size_t *start);

/* Writes the bins, rising, of value line `line`, from 0, to list and returns how many: of a file that tokuwhape_scan accepts with these
 * names and this head and with more than `line` lines. Of any bytes and any numbers the line is the 2 * names bytes from head + line * 2 *
 * names on. Where it does not stand whole in the file, names is above 256, or there are fewer than `names` places, it writes nothing and
 * returns 0. */
size_t tokuwhape_group(const uint8_t *file, size_t length, size_t names, size_t head, size_t line, uint16_t *list, size_t places);

/* ---- The calls: end. */

#ifdef __cplusplus
}
#endif

#endif
