#include <stdio.h>
#include "tokuwhape.h"

static tokuwhape_node nodes[TOKUWHAPE_RECORDS];
static uint64_t book[TOKUWHAPE_WORDS];

int main(void) {
    uint16_t groups[4][2] = {{1, 3}, {3, 5}, {1, 5}, {2, 4}}, order[5];
    size_t count, value;
    tokuwhape_open(TOKUWHAPE_RING, 5, nodes, TOKUWHAPE_NUMBERS, book, TOKUWHAPE_WORDS, &count);
    for (int i = 0; i < 4; i++) {
        uint8_t answer = tokuwhape_join(TOKUWHAPE_RING, 5, nodes, TOKUWHAPE_NUMBERS, book, TOKUWHAPE_WORDS, count, groups[i], 2, &value);
        if (answer == TOKUWHAPE_DONE) count = value;
        else printf("%d %d refused\n", groups[i][0], groups[i][1]);
    }
    tokuwhape_order(TOKUWHAPE_RING, 5, nodes, TOKUWHAPE_NUMBERS, order, 5, &value);
    printf("[%d, %d, %d, %d, %d]\n", order[0], order[1], order[2], order[3], order[4]);
}
