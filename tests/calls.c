/* The archive's calls from C: each refusal's number and value, and what is written past a table's stated size. */
#include <stdio.h>
#include <string.h>
#include "tokuwhape.h"

enum { RING = TOKUWHAPE_RING, RACK = TOKUWHAPE_RACK };

enum { RECORDS = TOKUWHAPE_RECORDS, WORDS = TOKUWHAPE_WORDS, GROUPS = TOKUWHAPE_GROUPS, TEXT = TOKUWHAPE_TEXT };

enum { FILE_BYTES = TOKUWHAPE_FILE };

/* A node table's numbers, and with one record more. */
enum { NUMBERS = TOKUWHAPE_NUMBERS, MORE = NUMBERS + sizeof(tokuwhape_node) / sizeof(uint16_t) };

/* The tables of a ring or a rack of five bins, each with one entry past its stated size. */
static tokuwhape_node nodes[RECORDS + 1], kept[RECORDS + 1], other[RECORDS], third[RECORDS + 1];
static uint64_t book[WORDS + 1], kept_book[WORDS + 1];
static uint16_t order[6], conflicts[GROUPS + 1];
static uint8_t bytes[TEXT + 1], load[FILE_BYTES + 1], kept_load[FILE_BYTES + 1];
static size_t value;
static int failed;

/* Counts a call that did not return this number and value. */
static void expect(const char *call, uint8_t got, uint8_t number, size_t wanted) {
    if (got != number || value != wanted) {
        printf("%s: %d with %lu, not %d with %lu\n", call, got, (unsigned long)value, number, (unsigned long)wanted);
        failed++;
    }
    value = 77;
}

/* Counts a fact that does not hold. */
static void holds(const char *fact, int is) {
    if (!is) {
        printf("%s: no\n", fact);
        failed++;
    }
}

#define EXPECT(call, number, wanted) expect(#call, call, number, wanted)
#define HOLDS(fact) holds(#fact, fact)
#define LIST(...) (const uint16_t[]){__VA_ARGS__}, sizeof((const uint16_t[]){__VA_ARGS__}) / sizeof(uint16_t)

/* Circle e: {1, 3} and {3, 5} joined, old numbers past the tables. */
static void circle_e(void) {
    memset(nodes, 171, sizeof nodes);
    memset(book, 171, sizeof book);
    EXPECT(tokuwhape_open(RING, 5, nodes, MORE, book, WORDS + 1, &value), TOKUWHAPE_DONE, 0);
    EXPECT(tokuwhape_join(RING, 5, nodes, MORE, book, WORDS + 1, 0, LIST(1, 3), &value), TOKUWHAPE_DONE, 1);
    EXPECT(tokuwhape_join(RING, 5, nodes, MORE, book, WORDS + 1, 1, LIST(3, 5), &value), TOKUWHAPE_DONE, 2);
    memcpy(kept, nodes, sizeof nodes);
    memcpy(kept_book, book, sizeof book);
}

/* Joining and trial: every refusal, and no table changed. */
static void joining(void) {
    EXPECT(tokuwhape_join(RING, 0, nodes, NUMBERS, book, WORDS, 2, LIST(2, 4), &value), TOKUWHAPE_RING_SIZE, 0);
    EXPECT(tokuwhape_join(RING, 257, nodes, NUMBERS, book, WORDS, 2, LIST(2, 4), &value), TOKUWHAPE_RING_SIZE, 0);
    EXPECT(tokuwhape_join(RING, 5, nodes, NUMBERS - 1, book, WORDS, 2, LIST(2, 4), &value), TOKUWHAPE_SHORT_TABLE, 0);
    EXPECT(tokuwhape_join(RING, 5, nodes, NUMBERS, book, WORDS - 1, 2, LIST(2, 4), &value), TOKUWHAPE_SHORT_TABLE, 0);
    EXPECT(tokuwhape_join(RING, 6, nodes, NUMBERS, book, WORDS, 2, LIST(2, 4), &value), TOKUWHAPE_NOT_IN_FORM, 0);
    EXPECT(tokuwhape_join(RING, 5, nodes, NUMBERS, book, WORDS, 97, LIST(2, 4), &value), TOKUWHAPE_NOT_IN_FORM, 0);
    EXPECT(tokuwhape_join(RING, 5, nodes, NUMBERS, book, WORDS, 2, LIST(2, 4, 6), &value), TOKUWHAPE_OUTSIDE_RING, 2);
    EXPECT(tokuwhape_join(RING, 5, nodes, NUMBERS, book, WORDS, 2, LIST(2, 4, 2), &value), TOKUWHAPE_REPEATED, 2);
    EXPECT(tokuwhape_join(RING, 5, nodes, NUMBERS, book, WORDS, 2, LIST(1, 5), &value), TOKUWHAPE_IMPOSSIBLE, 0);
    EXPECT(tokuwhape_trial(RING, 5, nodes, NUMBERS, book, WORDS, 2, LIST(1, 5), &value), TOKUWHAPE_IMPOSSIBLE, 0);
    EXPECT(tokuwhape_trial(RING, 5, nodes, NUMBERS, book, WORDS, 2, LIST(2, 4), &value), TOKUWHAPE_DONE, 3);
    EXPECT(tokuwhape_trial(RING, 5, nodes, NUMBERS, book, WORDS, 2, order, 0, &value), TOKUWHAPE_DONE, 3);
    HOLDS(memcmp(kept, nodes, sizeof nodes) == 0);
    HOLDS(memcmp(kept_book, book, sizeof book) == 0);
}

/* The calls that read a ring. */
static void reading(void) {
    memset(order, 171, sizeof order);
    memset(conflicts, 171, sizeof conflicts);
    memset(bytes, 171, sizeof bytes);
    EXPECT(tokuwhape_order(RING, 5, nodes, NUMBERS, order, 4, &value), TOKUWHAPE_SHORT_TABLE, 0);
    EXPECT(tokuwhape_order(RING, 5, nodes, NUMBERS, order, 6, &value), TOKUWHAPE_DONE, 5);
    HOLDS(order[0] == 1 && order[1] == 2 && order[2] == 4 && order[3] == 5 && order[4] == 3 && order[5] == 43947);
    EXPECT(tokuwhape_aim(RING, 5, nodes, NUMBERS, book, WORDS, 2, 1, &value), TOKUWHAPE_DONE, 1);
    EXPECT(tokuwhape_aim(RING, 5, nodes, NUMBERS, book, WORDS, 2, 2, &value), TOKUWHAPE_DONE, 3);
    EXPECT(tokuwhape_aim(RING, 5, nodes, NUMBERS, book, WORDS, 2, 3, &value), TOKUWHAPE_NO_SUCH_GROUP, 0);
    EXPECT(tokuwhape_aim(RING, 5, nodes, NUMBERS, book, WORDS, 3, 3, &value), TOKUWHAPE_NO_AIM, 0);
    EXPECT(tokuwhape_conflict(RING, 5, book, WORDS, 3, order, 0, conflicts, GROUPS + 1, &value), TOKUWHAPE_DONE, 0);
    EXPECT(tokuwhape_conflict(RING, 5, book, WORDS, 2, LIST(1, 5), conflicts, GROUPS + 1, &value), TOKUWHAPE_DONE, 2);
    HOLDS(conflicts[0] == 1 && conflicts[1] == 2 && conflicts[2] == 0 && conflicts[95] == 0 && conflicts[96] == 43947);
    EXPECT(tokuwhape_write(RING, 5, nodes, NUMBERS, bytes, TEXT + 1, &value), TOKUWHAPE_DONE, 15);
    HOLDS(strcmp((const char *)bytes, "1 C(P(2 4) 5 3)") == 0 && bytes[TEXT - 1] == 0 && bytes[TEXT] == 171);
    book[4] = 9;
    EXPECT(tokuwhape_aim(RING, 5, nodes, NUMBERS, book, WORDS, 2, 2, &value), TOKUWHAPE_NOT_CONSECUTIVE, 0);
    book[4] = kept_book[4];
    nodes[0].kind = 258;
    EXPECT(tokuwhape_order(RING, 5, nodes, NUMBERS, order, 5, &value), TOKUWHAPE_NOT_IN_FORM, 0);
    nodes[0].kind = 2;
    nodes[1].kind = 2; /* a C-node with two items */
    EXPECT(tokuwhape_order(RING, 5, nodes, NUMBERS, order, 5, &value), TOKUWHAPE_NOT_IN_FORM, 0);
    nodes[1].kind = 1;
}

/* The reader of texts, which overwrites the tables, and a full book, its first group an empty one. */
static void filling(void) {
    EXPECT(tokuwhape_read(RING, 5, nodes, NUMBERS, book, WORDS, (const uint8_t *)"1 P(2 3 4)", 10, &value), TOKUWHAPE_TREE_TEXT, 9);
    EXPECT(tokuwhape_read(RING, 5, nodes, NUMBERS, book, WORDS, (const uint8_t *)"1 C(C(4 2) 3 5)", 15, &value), TOKUWHAPE_TREE_TEXT, 6);
    HOLDS(memcmp(kept, nodes, sizeof nodes) == 0);
    nodes[0].kind = nodes[1].kind = 7;
    EXPECT(tokuwhape_read(RING, 5, nodes, NUMBERS, book, WORDS, (const uint8_t *)"1 C(C(2 4) 5 3)", 15, &value), TOKUWHAPE_DONE, 0);
    HOLDS(memcmp(kept, nodes, sizeof nodes) == 0 && book[0] == 0);
    EXPECT(tokuwhape_read(RING, 5, nodes, MORE, book, WORDS + 1, (const uint8_t *)"1 P(2 3 4 5)", 12, &value), TOKUWHAPE_DONE, 0);
    HOLDS(nodes[0].kind == 1 && nodes[0].count == 4 && nodes[0].items[3] == 5 && nodes[1].kind == 0 && book[0] == 0);
    EXPECT(tokuwhape_join(RING, 5, nodes, MORE, book, WORDS + 1, 0, order, 0, &value), TOKUWHAPE_DONE, 1);
    for (size_t count = 1; count < 96; count++)
        EXPECT(tokuwhape_join(RING, 5, nodes, MORE, book, WORDS + 1, count, LIST(1, 2, 3, 4, 5), &value), TOKUWHAPE_DONE, count + 1);
    EXPECT(tokuwhape_join(RING, 5, nodes, NUMBERS, book, WORDS, 96, LIST(1, 2, 3, 4, 5), &value), TOKUWHAPE_BOOK_FULL, 0);
    EXPECT(tokuwhape_join(RING, 5, nodes, NUMBERS, book, WORDS, 96, order, 0, &value), TOKUWHAPE_BOOK_FULL, 0);
    EXPECT(tokuwhape_aim(RING, 5, nodes, NUMBERS, book, WORDS, 96, 1, &value), TOKUWHAPE_NO_AIM, 0);
    HOLDS(memcmp(&kept[RECORDS], &nodes[RECORDS], sizeof nodes[0]) == 0 && book[WORDS] == kept_book[WORDS]);
}

/* The trees of {1, 3} and {3, 5}, made with one book, and what allows the orders of both: circle e's. */
static void intersecting(void) {
    EXPECT(tokuwhape_open(RING, 5, nodes, NUMBERS, book, WORDS, &value), TOKUWHAPE_DONE, 0);
    EXPECT(tokuwhape_join(RING, 5, nodes, NUMBERS, book, WORDS, 0, LIST(1, 3), &value), TOKUWHAPE_DONE, 1);
    EXPECT(tokuwhape_open(RING, 5, other, NUMBERS, book, WORDS, &value), TOKUWHAPE_DONE, 0);
    EXPECT(tokuwhape_join(RING, 5, other, NUMBERS, book, WORDS, 0, LIST(3, 5), &value), TOKUWHAPE_DONE, 1);
    memset(third, 171, sizeof third);
    EXPECT(tokuwhape_intersect(RING, 5, nodes, NUMBERS, RING, 5, other, NUMBERS, third, MORE, &value), TOKUWHAPE_DONE, 0);
    HOLDS(memcmp(kept, third, sizeof third) == 0);
    EXPECT(tokuwhape_intersect(RING, 5, nodes, NUMBERS, RING, 257, other, NUMBERS - 1, third, MORE, &value), TOKUWHAPE_RING_SIZE, 0);
    EXPECT(tokuwhape_intersect(RING, 5, nodes, NUMBERS - 1, RING, 6, other, NUMBERS, third, MORE, &value), TOKUWHAPE_SHORT_TABLE, 0);
    EXPECT(tokuwhape_intersect(RING, 5, nodes, NUMBERS, RING, 6, other, NUMBERS - 1, third, MORE, &value), TOKUWHAPE_SHORT_TABLE, 0);
    EXPECT(tokuwhape_intersect(RING, 5, nodes, NUMBERS, RING, 6, other, NUMBERS, third, NUMBERS - 1, &value), TOKUWHAPE_SHORT_TABLE, 0);
    EXPECT(tokuwhape_intersect(RING, 5, nodes, NUMBERS, RING, 6, other, NUMBERS, third, MORE, &value), TOKUWHAPE_BIN_COUNTS, 0);
    EXPECT(tokuwhape_intersect(RING, 6, nodes, NUMBERS, RING, 6, other, NUMBERS, third, MORE, &value), TOKUWHAPE_NOT_IN_FORM, 0);
    EXPECT(tokuwhape_open(RING, 5, other, NUMBERS, book, WORDS, &value), TOKUWHAPE_DONE, 0);
    EXPECT(tokuwhape_join(RING, 5, other, NUMBERS, book, WORDS, 0, LIST(1, 5), &value), TOKUWHAPE_DONE, 1);
    memcpy(nodes, third, sizeof nodes);
    EXPECT(tokuwhape_intersect(RING, 5, nodes, NUMBERS, RING, 5, other, NUMBERS, third, MORE, &value), TOKUWHAPE_IMPOSSIBLE, 0);
    HOLDS(memcmp(kept, third, sizeof third) == 0);
}

/* A rack of five bins with four pairs joined, of which a ring keeps a fifth one: its order, aims, conflicts and text. */
static void racks(void) {
    const uint16_t pairs[4][2] = {{1, 3}, {3, 5}, {2, 4}, {1, 4}};
    memset(order, 171, sizeof order);
    EXPECT(tokuwhape_open(RACK, 5, nodes, MORE, book, WORDS + 1, &value), TOKUWHAPE_DONE, 0);
    for (size_t count = 0; count < 4; count++)
        EXPECT(tokuwhape_join(RACK, 5, nodes, MORE, book, WORDS + 1, count, pairs[count], 2, &value), TOKUWHAPE_DONE, count + 1);
    EXPECT(tokuwhape_trial(RACK, 5, nodes, NUMBERS, book, WORDS, 4, LIST(2, 5), &value), TOKUWHAPE_IMPOSSIBLE, 0);
    EXPECT(tokuwhape_conflict(RACK, 5, book, WORDS, 4, LIST(2, 5), conflicts, GROUPS, &value), TOKUWHAPE_DONE, 4);
    EXPECT(tokuwhape_conflict(RING, 5, book, WORDS, 4, LIST(2, 5), conflicts, GROUPS, &value), TOKUWHAPE_DONE, 0);
    EXPECT(tokuwhape_order(RACK, 5, nodes, NUMBERS, order, 6, &value), TOKUWHAPE_DONE, 5);
    HOLDS(order[0] == 2 && order[1] == 4 && order[2] == 1 && order[3] == 3 && order[4] == 5 && order[5] == 43947);
    EXPECT(tokuwhape_aim(RACK, 5, nodes, NUMBERS, book, WORDS, 4, 3, &value), TOKUWHAPE_DONE, 2);
    EXPECT(tokuwhape_aim(RACK, 5, nodes, NUMBERS, book, WORDS, 4, 4, &value), TOKUWHAPE_DONE, 1);
    EXPECT(tokuwhape_write(RACK, 5, nodes, NUMBERS, bytes, TEXT, &value), TOKUWHAPE_DONE, 14);
    HOLDS(strcmp((const char *)bytes, "1 C(3 5 6 2 4)") == 0);
    EXPECT(tokuwhape_read(255, 5, other, NUMBERS, book, WORDS, bytes, 14, &value), TOKUWHAPE_DONE, 0);
    HOLDS(memcmp(other, nodes, sizeof other) == 0);
    EXPECT(tokuwhape_intersect(RACK, 5, nodes, NUMBERS, 255, 5, other, NUMBERS, third, MORE, &value), TOKUWHAPE_DONE, 0);
    HOLDS(memcmp(third, nodes, sizeof other) == 0);
}

/* What a rack refuses beside a ring's refusals. */
static void racks_refused(void) {
    EXPECT(tokuwhape_open(RACK, 257, nodes, NUMBERS, book, WORDS, &value), TOKUWHAPE_RING_SIZE, 0);
    EXPECT(tokuwhape_open(RACK, 256, nodes, NUMBERS - 1, book, WORDS, &value), TOKUWHAPE_RACK_SIZE, 0);
    EXPECT(tokuwhape_open(RING, 256, nodes, NUMBERS - 1, book, WORDS, &value), TOKUWHAPE_SHORT_TABLE, 0);
    EXPECT(tokuwhape_join(RACK, 5, nodes, NUMBERS, book, WORDS, 0, LIST(1, 6), &value), TOKUWHAPE_OUTSIDE_RING, 1);
    EXPECT(tokuwhape_join(RING, 5, nodes, NUMBERS, book, WORDS, 0, LIST(1, 2), &value), TOKUWHAPE_NOT_IN_FORM, 0);
    EXPECT(tokuwhape_intersect(RACK, 5, nodes, NUMBERS, RING, 5, other, NUMBERS, third, MORE, &value), TOKUWHAPE_BIN_COUNTS, 0);
    EXPECT(tokuwhape_intersect(RACK, 5, nodes, NUMBERS, RING, 6, other, NUMBERS, third, MORE, &value), TOKUWHAPE_BIN_COUNTS, 0);
    book[0] = 32; /* the hidden end bin */
    EXPECT(tokuwhape_aim(RACK, 5, nodes, NUMBERS, book, WORDS, 1, 1, &value), TOKUWHAPE_NOT_IN_FORM, 0);
    book[0] = 18; /* bins 2 and 5, a run only past the ends */
    EXPECT(tokuwhape_aim(RACK, 5, nodes, NUMBERS, book, WORDS, 1, 1, &value), TOKUWHAPE_NOT_CONSECUTIVE, 0);
    HOLDS(memcmp(other, nodes, sizeof other) == 0 && memcmp(third, nodes, sizeof other) == 0);
}

/* Ring files. */
static void files(void) {
    const char *file = "A Bo C\n1 - 1\n0 0 0\n";
    const uint8_t *at = (const uint8_t *)file;
    size_t head = 77, lines = 77, start = 77;
    uint16_t list[3] = {9, 9, 9};
    EXPECT(tokuwhape_scan(at, 18, &head, &lines, &value), TOKUWHAPE_RING_FILE, 18);
    HOLDS(head == 0 && lines == 0);
    EXPECT(tokuwhape_scan(at, 19, &head, &lines, &value), TOKUWHAPE_DONE, 3);
    HOLDS(head == 7 && lines == 2);
    HOLDS(tokuwhape_name(at, 19, 1, &start) == 2 && start == 2);
    HOLDS(tokuwhape_group(at, 19, 3, head, 0, list, 2) == 0 && list[0] == 9);
    HOLDS(tokuwhape_name(at, 19, 3, &start) == 0 && start == 0);
    HOLDS(tokuwhape_group(at, 19, 3, 65537, 0, list, 3) == 0 && tokuwhape_group(at, 19, 3, head, 2, list, 3) == 0 && list[0] == 9);
    HOLDS(tokuwhape_group(at, 19, 3, head, 0, list, 3) == 2 && list[0] == 1 && list[1] == 3);
}

/* A test load of four bins and two groups, and each refusal, which leaves the bytes as they were. */
static void loads(void) {
    const char *file = "1 2 3 4\n1 1 0 0\n1 0 1 1\n";
    memset(load, 171, sizeof load);
    memset(kept_load, 0, FILE_BYTES);
    memcpy(kept_load, file, 24);
    kept_load[FILE_BYTES] = 171;
    EXPECT(tokuwhape_test_load(4, 1, 2, load, FILE_BYTES + 1, &value), TOKUWHAPE_DONE, 24);
    HOLDS(memcmp(kept_load, load, sizeof load) == 0);
    EXPECT(tokuwhape_test_load(0, 0, 0, load, 0, &value), TOKUWHAPE_RING_SIZE, 0);
    EXPECT(tokuwhape_test_load(257, 2, 96, load, FILE_BYTES, &value), TOKUWHAPE_RING_SIZE, 0);
    EXPECT(tokuwhape_test_load(256, 0, 97, load, FILE_BYTES - 1, &value), TOKUWHAPE_ZERO_SEED, 0);
    EXPECT(tokuwhape_test_load(256, 2, 0, load, FILE_BYTES - 1, &value), TOKUWHAPE_GROUP_COUNT, 0);
    EXPECT(tokuwhape_test_load(256, 2, 97, load, FILE_BYTES, &value), TOKUWHAPE_GROUP_COUNT, 0);
    EXPECT(tokuwhape_test_load(256, 2, 96, load, FILE_BYTES - 1, &value), TOKUWHAPE_SHORT_TABLE, 0);
    HOLDS(memcmp(kept_load, load, sizeof load) == 0);
    EXPECT(tokuwhape_test_load(256, 4294967295, 96, load, FILE_BYTES, &value), TOKUWHAPE_DONE, 50068);
    HOLDS(load[50067] == '\n' && load[50068] == 0 && load[FILE_BYTES - 1] == 0 && load[FILE_BYTES] == 171);
}

int main(void) {
    circle_e();
    joining();
    reading();
    filling();
    intersecting();
    racks();
    racks_refused();
    files();
    loads();
    return failed != 0;
}
