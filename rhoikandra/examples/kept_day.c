/* Opens a book and sends a day to it as frames of a tape: an ON, a CC and a DK. The book is saved to a file before what a call wrote is
   sent, and halfway it is loaded from there, as after a restart. Prints the figures after each message, and at the end how the answers
   were. The file is the first word of the command line.

       cc kept_day.c $(pkg-config --cflags --libs rhoikandra) -o kept_day && ./kept_day /tmp/kept_day.book */
#define _POSIX_C_SOURCE 200809L
#include <fcntl.h>
#include <stdio.h>
#include <stdlib.h>
#include <string.h>
#include <sys/random.h>
#include <unistd.h>

#include <rhoikandra.h>
#include <rhoikandra_saved.h>

#define RECORDS 64
#define HEADER 187
#define DETAIL 199
#define START 2
#define END 3

struct pool {
    const char *number;
    const char *terminator;
};

static uint64_t book[RHOIKANDRA_BOOK_WORDS];
static rhoikandra_pool pools[RECORDS];
static rhoikandra_tally_row tally[RHOIKANDRA_TALLY_ROWS];
static uint8_t saved[32768];
static uint8_t tape[4096], line[4096];
static size_t taped, sent;

static void fail(const char *what, const char *why) {
    fprintf(stderr, "%s: %s\n", what, why);
    exit(EXIT_FAILURE);
}

/* A byte takes a word. */
static void put(size_t at, const char *text) {
    for (; *text; text++)
        book[at++] = (uint8_t)*text;
}

static void lay(uint8_t *body, size_t at, const char *text) { memcpy(body + at, text, strlen(text)); }

/* The body of a message with its pools, each of one million: a header and details by the columns of the paper. */
static size_t lay_body(uint8_t *body, const char *kind, int sequence, int millions, int target, const struct pool *listed, int count) {
    char text[32];
    int news = 0;
    memset(body, ' ', HEADER + DETAIL * (size_t)count);
    lay(body, 0, kind);
    snprintf(text, sizeof text, "%06d00201231200%s", sequence, kind[0] == 'D' ? "MBBB" : "MBAA");
    lay(body, 2, text);
    lay(body, 23, "FTBA01F082630");
    lay(body, 37, "00100000000");
    snprintf(text, sizeof text, "098500000000%04d", millions);
    lay(body, 58, text);
    lay(body, 74, "071420260714202607142026");
    snprintf(text, sizeof text, "%04d%011d", kind[0] == 'D', target);
    lay(body, 118, text);
    for (int i = 0; i < count; i++) {
        uint8_t *detail = body + HEADER + DETAIL * (size_t)i;
        lay(detail, 0, "LOT001");
        lay(detail, 8, listed[i].number);
        lay(detail, 15, "001000000");
        lay(detail, 79, "00100000000");
        lay(detail, 122, listed[i].terminator);
        news += listed[i].terminator[0] == '7';
    }
    snprintf(text, sizeof text, "%04d", news);
    lay(body, 183, text);
    return HEADER + DETAIL * (size_t)count;
}

/* Puts a message on the tape, as a frame. */
static void put_frame(const char *kind, int sequence, int millions, int target, const struct pool *listed, int count) {
    tape[taped++] = START;
    taped += lay_body(tape + taped, kind, sequence, millions, target, listed, count);
    tape[taped++] = END;
}

/* A number that whoever sends the frames does not know. */
static uint64_t seed(void) {
    uint64_t drawn;
    if (getrandom(&drawn, sizeof drawn, 0) != sizeof drawn)
        fail("seed", "none is drawn");
    return drawn;
}

/* Puts on the disk which files the folder of a file has. */
static int sync_folder(const char *path) {
    char folder[4096];
    const char *name = strrchr(path, '/');
    snprintf(folder, sizeof folder, "%.*s", name ? (int)(name - path) + 1 : 1, name ? path : ".");
    int opened = open(folder, O_RDONLY);
    int failed = opened < 0 || fsync(opened) != 0;
    return (opened < 0 || close(opened) != 0) || failed;
}

/* Writes the book to a new file, and puts that in the place of the last one when it is on the disk. A desk writes what is to be sent
   after the book, and sends it again after a restart, as README says. */
static void save(const char *path) {
    char next[4096];
    size_t size = rhoikandra_save(book, pools, RECORDS, saved, sizeof saved);
    snprintf(next, sizeof next, "%s.next", path);
    FILE *file = fopen(next, "wb");
    if (size == 0 || !file || fwrite(saved, 1, size, file) != size || fflush(file) != 0 || fsync(fileno(file)) != 0 ||
        fclose(file) != 0 || rename(next, path) != 0 || sync_folder(path) != 0)
        fail(path, "the book is not saved");
}

static void load(const char *path) {
    FILE *file = fopen(path, "rb");
    if (!file)
        fail(path, "no such file");
    size_t size = fread(saved, 1, sizeof saved, file);
    fclose(file);
    rhoikandra_loaded loaded = rhoikandra_load(book, pools, RECORDS, saved, size);
    if (loaded != RHOIKANDRA_LOADED)
        fail(path, rhoikandra_loaded_text(loaded));
}

/* Puts the body of a frame to the book. Of the output exactly the bytes that the call wrote go out on the line. */
static void step(const uint8_t *body, size_t length, const char *path) {
    uint8_t out[RHOIKANDRA_OUTPUT_LENGTH];
    uint64_t said[3], figures[3];
    rhoikandra_step(book, RHOIKANDRA_BOOK_WORDS, pools, RECORDS, body, length, (const uint8_t *)"093000", 6, seed(), out, sizeof out, said, 3);
    save(path);
    memcpy(line + sent, out, said[2]);
    sent += said[2];
    rhoikandra_tally(tally, RHOIKANDRA_TALLY_ROWS, body, length, said, 3);
    rhoikandra_figures(book, RHOIKANDRA_BOOK_WORDS, pools, RECORDS, 0, seed(), figures, 3);
    printf("%.2s %s %llu; open par %llu, standing millions %llu\n", (const char *)body,
           said[0] == 0   ? "accepted under"
           : said[0] == 1 ? "rejected with"
                          : "DKed with",
           (unsigned long long)said[1], (unsigned long long)figures[1], (unsigned long long)figures[2]);
}

/* One trade of three millions. */
static void open_book(void) {
    static const uint64_t limits[4] = {2500, 10000, 3, 1000};
    put(0, "T1");
    book[RHOIKANDRA_TRADE_LENGTH] = 2;
    put(RHOIKANDRA_TRADE_SELLER, "MBAAMBBBFTBA01F082630");
    book[RHOIKANDRA_TRADE_SETTLEMENT] = 7142026;
    book[RHOIKANDRA_TRADE_PRICE] = 98500000000;
    book[RHOIKANDRA_TRADE_PAR] = 300000000;
    book[RHOIKANDRA_COUNT] = 1;
    put(RHOIKANDRA_SUBSCRIBER, "01231200");
    memcpy(book + RHOIKANDRA_LIMITS, limits, sizeof limits);
    if (rhoikandra_open(book, RHOIKANDRA_BOOK_WORDS, pools, RECORDS) != 0)
        fail("opening", "a value is out of range");
}

int main(int count, char **words) {
    const char *path = count > 1 ? words[1] : "kept_day.book";
    open_book();

    /* Two good lots of one million each; then one of them is replaced; then the replacement is questioned, twice. */
    put_frame("ON", 1, 2, 0, (const struct pool[]){{"AA00001", "0001"}, {"AA00002", "0001"}}, 2);
    put_frame("CC", 2, 0, 1, (const struct pool[]){{"AA00002", "6001"}, {"AA00003", "7001"}}, 2);
    put_frame("DK", 3, 0, 2, (const struct pool[]){{"AA00003", "0001"}}, 1);
    put_frame("DK", 4, 0, 2, (const struct pool[]){{"AA00003", "0001"}}, 1);

    uint64_t found[4] = {0, 0, 0, 0};
    for (int frames = 0; rhoikandra_frame(tape, taped, found[3], found, 4), found[0] == 1; frames++) {
        if (frames == 2) {
            memset(book, 0, sizeof book);
            memset(pools, 0, sizeof pools);
            load(path);
        }
        step(tape + found[1], found[2] - found[1], path);
    }

    unsigned sums[3] = {0, 0, 0};
    for (int row = 0; row < RHOIKANDRA_TALLY_ROWS; row++)
        for (int column = 0; column < 3; column++)
            sums[column] += tally[row][column];
    printf("%u accepted, %u rejected, %u DKed; %zu bytes sent\n", sums[0], sums[1], sums[2], sent);
    return EXIT_SUCCESS;
}
