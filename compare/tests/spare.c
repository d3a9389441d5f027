/* An accepted opening leaves nothing in the bytes of a table that are no part of its records, and a refused one leaves all as it was. */
#include <string.h>

#include "../../rhoikandra/rhoikandra.h"

#define RECORDS 64

static uint64_t book[RHOIKANDRA_BOOK_WORDS];
static rhoikandra_pool pools[RECORDS];

static int all(int byte) {
    const uint8_t *bytes = (const uint8_t *)pools;
    for (size_t i = 0; i < sizeof pools; i++)
        if (bytes[i] != byte)
            return 0;
    return 1;
}

int main(void) {
    static const uint64_t limits[4] = {2500, 10000, 3, 1000};
    memset(pools, 0xFF, sizeof pools);
    if (rhoikandra_open(book, RHOIKANDRA_BOOK_WORDS, pools, RECORDS) != 41 || !all(0xFF))
        return 1;
    for (int i = 0; i < 8; i++)
        book[RHOIKANDRA_SUBSCRIBER + i] = (uint8_t)"01231200"[i];
    memcpy(book + RHOIKANDRA_LIMITS, limits, sizeof limits);
    return rhoikandra_open(book, RHOIKANDRA_BOOK_WORDS, pools, RECORDS) != 0 || !all(0);
}
