/* What the header says of lengths: each that a call does not ask for, and null pointers where a length is 0. */
#include <stdio.h>
#include <stdlib.h>
#include <string.h>

#include <rhoikandra.h>

#define WORDS RHOIKANDRA_BOOK_WORDS
#define RECORDS 2
#define BODY 386

/* All that calls are lent here, so that one comparison tells whether something moved. */
struct lent {
    uint64_t book[WORDS + 1];
    rhoikandra_pool pools[RHOIKANDRA_RECORDS_MAX + 1];
    uint8_t out[RHOIKANDRA_OUTPUT_LENGTH + 3];
    uint64_t numbers[6];
    rhoikandra_tally_row tally[RHOIKANDRA_TALLY_ROWS + 1];
};

static struct lent opened, now, before;
static uint8_t body[BODY + 1];
static const uint8_t *const time_bytes = (const uint8_t *)"0930001";

#define EXPECT(fact)                                      \
    do                                                    \
        if (!(fact)) {                                    \
            fprintf(stderr, "%d: %s\n", __LINE__, #fact); \
            exit(EXIT_FAILURE);                           \
        }                                                 \
    while (0)

static void again(void) {
    now = opened;
    memset(now.out, 7, sizeof now.out);
    for (int i = 0; i < 6; i++)
        now.numbers[i] = 9;
    before = now;
}

/* Whether all but the first so many numbers is as it was. */
static int stays(size_t numbers) {
    memcpy(before.numbers, now.numbers, numbers * sizeof now.numbers[0]);
    return memcmp(&now, &before, sizeof now) == 0;
}

static int said(uint64_t first, uint64_t second, uint64_t third) {
    return now.numbers[0] == first && now.numbers[1] == second && now.numbers[2] == third;
}

/* A frame call on these lengths; a pointer is null where its length is 0. */
static void step(size_t words, size_t records, size_t body_len, size_t time_len, size_t out_len, size_t said_len) {
    again();
    rhoikandra_step(words ? now.book : NULL, words, records ? now.pools : NULL, records, body_len ? body : NULL, body_len,
                    time_len ? time_bytes : NULL, time_len, 1, out_len ? now.out : NULL, out_len, said_len ? now.numbers : NULL, said_len);
}

static void opening(void) {
    static const uint64_t limits[4] = {2500, 10000, 3, 1000};
    for (int i = 0; i < 8; i++)
        opened.book[RHOIKANDRA_SUBSCRIBER + i] = (uint8_t)"01231200"[i];
    memcpy(opened.book + RHOIKANDRA_LIMITS, limits, sizeof limits);
    again();
    EXPECT(rhoikandra_open(NULL, 0, NULL, 0) == 41);
    EXPECT(rhoikandra_open(NULL, 0, now.pools, RECORDS) == 41 && stays(0));
    EXPECT(rhoikandra_open(now.book, WORDS - 1, now.pools, RECORDS) == 41 && stays(0));
    EXPECT(rhoikandra_open(now.book, WORDS + 1, now.pools, RECORDS) == 41 && stays(0));
    EXPECT(rhoikandra_open(now.book, WORDS, now.pools, RHOIKANDRA_RECORDS_MAX + 1) == 41 && stays(0));
    EXPECT(rhoikandra_open(now.book, WORDS, now.pools, RHOIKANDRA_RECORDS_MAX) == 0);
    EXPECT(rhoikandra_open(now.book, WORDS, NULL, 0) == 0);
    EXPECT(rhoikandra_open(opened.book, WORDS, opened.pools, RECORDS) == 0);
}

static void steps(void) {
    static const size_t times[] = {0, 1, 5, 7}, words[] = {0, 1, WORDS - 1, WORDS + 1}, outs[] = {0, 1, 63, 64, RHOIKANDRA_OUTPUT_LENGTH - 1};
    static const size_t bodies[] = {0, 1, BODY - 1, BODY + 1};
    for (size_t i = 0; i < 4; i++) {
        step(WORDS, RECORDS, BODY, times[i], RHOIKANDRA_OUTPUT_LENGTH, 3);
        EXPECT(said(1, 90, 0) && stays(3));
        step(words[i], RECORDS, BODY, 6, RHOIKANDRA_OUTPUT_LENGTH, 3);
        EXPECT(said(1, 42, 0) && stays(3));
        step(WORDS, RECORDS, bodies[i], 6, RHOIKANDRA_OUTPUT_LENGTH, 3);
        EXPECT(said(1, 10, 0) && stays(3));
    }
    for (size_t i = 0; i < sizeof outs / sizeof outs[0]; i++) {
        step(WORDS, RECORDS, BODY, 6, outs[i], 3);
        EXPECT(said(1, 44, 0) && stays(3));
    }
    step(WORDS, RHOIKANDRA_RECORDS_MAX + 1, BODY, 6, RHOIKANDRA_OUTPUT_LENGTH, 3);
    EXPECT(said(1, 42, 0) && stays(3));

    /* The order in which they are refused. */
    step(0, 0, 0, 0, 0, 3);
    EXPECT(said(1, 90, 0) && stays(3));
    step(0, 0, 0, 6, 0, 3);
    EXPECT(said(1, 42, 0) && stays(3));
    step(WORDS, 0, 0, 6, 0, 3);
    EXPECT(said(1, 44, 0) && stays(3));
    step(WORDS, 0, 0, 6, RHOIKANDRA_OUTPUT_LENGTH, 3);
    EXPECT(said(1, 10, 0) && stays(3));
    step(0, 0, 0, 0, 0, 0);
    EXPECT(stays(0));

    /* Numbers that are used up come before a short output, and a sequence after the length. */
    opened.book[RHOIKANDRA_OUTBOUND] = 999998;
    step(WORDS, 0, 0, 6, 0, 3);
    EXPECT(said(1, 43, 0) && stays(3));
    opened.book[RHOIKANDRA_OUTBOUND] = 0;
    opened.book[RHOIKANDRA_LAST] = 99999999999;
    step(WORDS, 0, 0, 6, 0, 3);
    EXPECT(said(1, 43, 0) && stays(3));
    opened.book[RHOIKANDRA_LAST] = 0;
    memcpy(body + 2, "999999", 6);
    step(WORDS, RECORDS, BODY + 1, 6, RHOIKANDRA_OUTPUT_LENGTH, 3);
    EXPECT(said(1, 10, 0) && stays(3));
    step(WORDS, RECORDS, BODY, 6, RHOIKANDRA_OUTPUT_LENGTH, 3);
    EXPECT(said(1, 11, 0) && stays(3));
    memcpy(body + 2, "000001", 6);
}

/* A message of a type that is unknown is answered with an AA, also over a table of no records: the call is made, whether its answer has
   room or not, and what is longer keeps its tail. */
static void rooms(void) {
    static struct lent made;
    step(WORDS, RECORDS, BODY, 6, RHOIKANDRA_OUTPUT_LENGTH, 3);
    EXPECT(said(1, 13, 64) && now.numbers[3] == 9 && now.book[RHOIKANDRA_OUTBOUND] == 1 && now.out[63] == 3 && now.out[64] == 7);
    made = now;
    for (size_t room = 0; room < 6; room++) {
        step(WORDS, room == 5 ? 0 : RECORDS, BODY, 6, sizeof now.out, room);
        EXPECT(room < 3 ? said(9, 9, 9) : said(1, 13, 64));
        before = made;
        EXPECT(stays(3));
    }
}

static void figures(void) {
    for (size_t room = 0; room < 5; room++) {
        again();
        rhoikandra_figures(now.book, WORDS, now.pools, RECORDS, 0, 1, room ? now.numbers : NULL, room);
        EXPECT((room < 3 ? said(9, 9, 9) : said(0, 0, 0)) && now.numbers[3] == 9 && stays(3));
    }
    again();
    rhoikandra_figures(NULL, 0, NULL, 0, SIZE_MAX, 1, now.numbers, 3);
    EXPECT(said(0, 0, 0) && stays(3));
    again();
    rhoikandra_figures(now.book, WORDS, NULL, 0, 0, 1, now.numbers, 3);
    EXPECT(said(0, 0, 0) && stays(3));
    again();
    rhoikandra_figures(now.book, WORDS, now.pools, RHOIKANDRA_RECORDS_MAX + 1, 0, 1, now.numbers, 3);
    EXPECT(said(0, 0, 0) && stays(3));
}

/* The rule that is named first and its place, for each length of what is lent and of what is said. */
static void faults(void) {
    static const size_t words[] = {0, 1, WORDS - 1, WORDS, WORDS + 1};
    for (size_t i = 0; i < sizeof words / sizeof words[0]; i++)
        for (size_t room = 0; room < 4; room++) {
            const uint64_t rule = words[i] == WORDS ? 0 : 101;
            again();
            rhoikandra_opening_fault(words[i] ? now.book : NULL, words[i], RECORDS, room ? now.numbers : NULL, room);
            EXPECT((room < 2 ? said(9, 9, 9) : said(rule, 0, 9)) && stays(2));
            again();
            rhoikandra_book_fault(words[i] ? now.book : NULL, words[i], now.pools, RECORDS, room ? now.numbers : NULL, room);
            EXPECT((room < 2 ? said(9, 9, 9) : said(rule, 0, 9)) && stays(2));
        }
    again();
    rhoikandra_opening_fault(NULL, 0, SIZE_MAX, NULL, 0);
    rhoikandra_book_fault(NULL, 0, NULL, 0, NULL, 0);
    EXPECT(stays(0));
    rhoikandra_book_fault(NULL, 0, NULL, 0, now.numbers, 2);
    EXPECT(said(101, 0, 9) && stays(2));
    again();
    rhoikandra_book_fault(now.book, WORDS, NULL, 0, now.numbers, 2);
    EXPECT(said(0, 0, 9) && stays(2));
    again();
    rhoikandra_opening_fault(now.book, WORDS, 0, now.numbers, 2);
    EXPECT(said(0, 0, 9) && stays(2));
    again();
    rhoikandra_opening_fault(now.book, WORDS, RHOIKANDRA_RECORDS_MAX + 1, now.numbers, 2);
    EXPECT(said(141, 0, 9) && stays(2));
    again();
    rhoikandra_opening_fault(now.book, WORDS, SIZE_MAX, now.numbers, 2);
    EXPECT(said(141, 0, 9) && stays(2));
    again();
    rhoikandra_book_fault(now.book, WORDS, now.pools, RHOIKANDRA_RECORDS_MAX + 1, now.numbers, 2);
    EXPECT(said(141, 0, 9) && stays(2));

    /* A record after the live ones that is not zeros, the last of a table. */
    again();
    now.pools[RECORDS - 1].kind = 1;
    before = now;
    rhoikandra_book_fault(now.book, WORDS, now.pools, RECORDS, now.numbers, 2);
    EXPECT(said(160, RECORDS - 1, 9) && stays(2));
}

static void tallies(void) {
    static const uint64_t accepted[2] = {0, 1};
    for (size_t rows = 0; rows < 6; rows++)
        for (size_t numbers = 0; numbers < 3; numbers++) {
            again();
            rhoikandra_tally(rows ? now.tally : NULL, rows, (const uint8_t *)"ON", 2, numbers ? accepted : NULL, numbers);
            before.tally[0][0] += rows == RHOIKANDRA_TALLY_ROWS && numbers == 2;
            EXPECT(stays(0));
        }
    again();
    rhoikandra_tally(now.tally, RHOIKANDRA_TALLY_ROWS, NULL, 0, accepted, 2);
    EXPECT(stays(0));
}

static void frames(void) {
    const uint8_t *tape = (const uint8_t *)"noise\x02" "ON\x03";
    for (size_t room = 0; room < 6; room++) {
        again();
        EXPECT(rhoikandra_frame(tape, 9, 0, room ? now.numbers : NULL, room) <= 9);
        EXPECT((room < 4 ? said(9, 9, 9) && now.numbers[3] == 9 : said(1, 6, 8) && now.numbers[3] == 9) && now.numbers[4] == 9 && stays(4));
    }
    again();
    EXPECT(rhoikandra_frame(tape, 9, 10, now.numbers, 4) == 0 && said(0, 0, 0) && now.numbers[3] == 0);
    again();
    EXPECT(rhoikandra_frame(tape, 9, SIZE_MAX, now.numbers, 4) == 0 && said(0, 0, 0) && now.numbers[3] == 0);
    again();
    EXPECT(rhoikandra_frame(NULL, 0, 0, now.numbers, 4) == 0 && said(0, 0, 0) && now.numbers[3] == 0);
    EXPECT(rhoikandra_frame(NULL, 0, 0, NULL, 0) == 0);
}

/* What is only read may overlap: the time bytes and the body here. */
static void overlaps(void) {
    again();
    rhoikandra_step(now.book, WORDS, now.pools, RECORDS, body, BODY, body + 2, 6, 1, now.out, RHOIKANDRA_OUTPUT_LENGTH, now.numbers, 3);
    EXPECT(said(1, 13, 64));
}

int main(void) {
    EXPECT(sizeof(rhoikandra_pool) == 72 && offsetof(rhoikandra_pool, current) == 48);
    memset(body, ' ', sizeof body);
    memcpy(body, "XX000001", 8);
    opening();
    steps();
    rooms();
    figures();
    faults();
    tallies();
    frames();
    overlaps();
    return EXIT_SUCCESS;
}
