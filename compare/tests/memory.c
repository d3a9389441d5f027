/* What the header says of memory and threads, on a book and a tape from files. Whatever a call is lent ends, and then begins, at a page
   that cannot be touched, and what it only reads stands where it cannot be written: each call says and leaves what it does on memory
   of the usual kind, for the lengths that it asks for and for others. Then threads put the tape to books of their own, and ask the
   figures and the fault of one book that none of them can write; and saving and loading go no deeper than is stated. */
#define _GNU_SOURCE
#include <pthread.h>
#include <stdio.h>
#include <stdlib.h>
#include <string.h>
#include <sys/mman.h>
#include <unistd.h>

#include <rhoikandra_saved.h>

#define WORDS RHOIKANDRA_BOOK_WORDS
#define RECORDS RHOIKANDRA_RECORDS_MAX
#define THREADS 4
#define ROOM (1u << 19)

#define EXPECT(fact)                                      \
    do                                                    \
        if (!(fact)) {                                    \
            fprintf(stderr, "%d: %s\n", __LINE__, #fact); \
            exit(EXIT_FAILURE);                           \
        }                                                 \
    while (0)

/* All that a frame call moves. */
struct moved {
    uint64_t book[WORDS];
    rhoikandra_pool pools[RECORDS];
    uint8_t out[RHOIKANDRA_OUTPUT_LENGTH];
    uint64_t said[3];
};

static struct moved loaded;
static uint8_t bytes[ROOM], tape[1u << 20];
static size_t taped;
static size_t page;

/* What is lent stands against the page after a room, or against the one before it. */
enum side { AT_THE_END, AT_THE_START };

/* A room between two pages that cannot be touched, with a copy of what is lent in it. */
struct lent {
    uint8_t *room;
    void *at;
    void *kept;
    size_t size;
};

static struct lent lend(enum side side, const void *of, size_t size, int written) {
    struct lent lent = {NULL, NULL, NULL, size};
    uint8_t *all = (uint8_t *)mmap(NULL, ROOM + 2 * page, PROT_NONE, MAP_PRIVATE | MAP_ANONYMOUS, -1, 0);
    EXPECT(all != MAP_FAILED && size <= ROOM);
    lent.room = all + page;
    EXPECT(mprotect(lent.room, ROOM, PROT_READ | PROT_WRITE) == 0);
    lent.at = side == AT_THE_END ? lent.room + ROOM - size : lent.room;
    if (size > 0)
        memcpy(lent.at, of, size);
    lent.kept = malloc(size + 1);
    EXPECT(lent.kept != NULL);
    if (size > 0)
        memcpy(lent.kept, of, size);
    if (!written)
        EXPECT(mprotect(lent.room, ROOM, PROT_READ) == 0);
    return lent;
}

/* Whether all of it is as it was lent. */
static int stays(const struct lent *lent) { return memcmp(lent->at, lent->kept, lent->size) == 0; }

static void take_back(struct lent *lent) {
    EXPECT(munmap(lent->room - page, ROOM + 2 * page) == 0);
    free(lent->kept);
}

static size_t read_file(const char *path, uint8_t *to, size_t room) {
    FILE *file = fopen(path, "rb");
    size_t size = file ? fread(to, 1, room, file) : 0;
    EXPECT(size > 0 && size < room);
    fclose(file);
    return size;
}

/* What a call leaves on memory of the usual kind. */
static void step(struct moved *moved, const uint8_t *body, size_t length) {
    rhoikandra_step(moved->book, WORDS, moved->pools, RECORDS, body, length, (const uint8_t *)"093000", 6, 1, moved->out, sizeof moved->out,
                    moved->said, 3);
}

/* The lengths of a frame call: all as it asks for, and each another in turn. */
struct lengths {
    size_t words, records, body, time, out, said;
};

/* The call on these lengths leaves what it does on memory of the usual kind. */
static void stepped(enum side side, const uint8_t *body, struct lengths of) {
    static struct moved usual;
    const uint8_t time[7] = {'0', '9', '3', '0', '0', '0', '0'};
    usual = loaded;
    rhoikandra_step(usual.book, of.words, usual.pools, of.records, body, of.body, time, of.time, 1, usual.out, of.out, usual.said, of.said);
    struct lent words = lend(side, loaded.book, of.words * sizeof(uint64_t), 1), pools = lend(side, loaded.pools, of.records * sizeof(rhoikandra_pool), 1);
    struct lent read = lend(side, body, of.body, 0), told = lend(side, time, of.time, 0);
    struct lent out = lend(side, loaded.out, of.out, 1), said = lend(side, loaded.said, of.said * sizeof(uint64_t), 1);
    rhoikandra_step((uint64_t *)words.at, of.words, (rhoikandra_pool *)pools.at, of.records, (const uint8_t *)read.at, of.body,
                    (const uint8_t *)told.at, of.time, 2, (uint8_t *)out.at, of.out, (uint64_t *)said.at, of.said);
    EXPECT(memcmp(words.at, usual.book, words.size) == 0 && memcmp(pools.at, usual.pools, pools.size) == 0);
    EXPECT(memcmp(out.at, usual.out, out.size) == 0 && memcmp(said.at, usual.said, said.size) == 0 && stays(&read) && stays(&told));
    struct lent *all[] = {&words, &pools, &read, &told, &out, &said};
    for (size_t i = 0; i < sizeof all / sizeof all[0]; i++)
        take_back(all[i]);
}

static void steps(enum side side, const uint8_t *body, size_t length) {
    const struct lengths asked = {WORDS, RECORDS, length, 6, RHOIKANDRA_OUTPUT_LENGTH, 3};
    struct lengths others[] = {asked, asked, asked, asked, asked, asked, asked, asked, asked, {0, 0, 0, 0, 0, 0}};
    others[1].words--;
    others[2].records--;
    others[3].records = 0;
    others[4].body--;
    others[5].body = 0;
    others[6].time--;
    others[7].out--;
    others[8].said--;
    for (size_t i = 0; i < sizeof others / sizeof others[0]; i++)
        stepped(side, body, others[i]);
}

/* The calls that only read a book: its figures and what is wrong with it, and with an opening by its words. */
static void asked(enum side side) {
    static const uint64_t nines[3] = {9, 9, 9};
    for (size_t missing = 0; missing < 2; missing++)
        for (size_t records = RECORDS - 1; records <= RECORDS; records++) {
            uint64_t usual[3][3] = {{9, 9, 9}, {9, 9, 9}, {9, 9, 9}};
            struct lent words = lend(side, loaded.book, (WORDS - missing) * sizeof(uint64_t), 0);
            struct lent pools = lend(side, loaded.pools, records * sizeof(rhoikandra_pool), 0);
            rhoikandra_figures(loaded.book, WORDS - missing, loaded.pools, records, 0, 1, usual[0], 3);
            rhoikandra_opening_fault(loaded.book, WORDS - missing, records, usual[1], 2);
            rhoikandra_book_fault(loaded.book, WORDS - missing, loaded.pools, records, usual[2], 2);
            for (size_t short_of = 0; short_of < 2; short_of++) {
                const size_t room[3] = {3 - short_of, 2 - short_of, 2 - short_of};
                struct lent told[3];
                for (int i = 0; i < 3; i++)
                    told[i] = lend(side, nines, room[i] * sizeof(uint64_t), 1);
                rhoikandra_figures((const uint64_t *)words.at, WORDS - missing, (const rhoikandra_pool *)pools.at, records, 0, 2,
                                   (uint64_t *)told[0].at, room[0]);
                rhoikandra_opening_fault((const uint64_t *)words.at, WORDS - missing, records, (uint64_t *)told[1].at, room[1]);
                rhoikandra_book_fault((const uint64_t *)words.at, WORDS - missing, (const rhoikandra_pool *)pools.at, records,
                                      (uint64_t *)told[2].at, room[2]);
                for (int i = 0; i < 3; i++) {
                    EXPECT(memcmp(told[i].at, short_of ? nines : usual[i], told[i].size) == 0);
                    take_back(&told[i]);
                }
            }
            take_back(&words);
            take_back(&pools);
        }
}

/* Opening, with the numbers of the book's live pools and all else that it sets itself in the words, and on a table that is full. */
static void opened(enum side side) {
    for (size_t missing = 0; missing < 2; missing++)
        for (size_t records = RECORDS - 1; records <= RECORDS; records++) {
            static struct moved usual;
            usual = loaded;
            struct lent words = lend(side, loaded.book, (WORDS - missing) * sizeof(uint64_t), 1);
            struct lent pools = lend(side, loaded.pools, records * sizeof(rhoikandra_pool), 1);
            const uint64_t number = rhoikandra_open(usual.book, WORDS - missing, usual.pools, records);
            EXPECT(number == (missing ? 41 : 0));
            EXPECT(rhoikandra_open((uint64_t *)words.at, WORDS - missing, (rhoikandra_pool *)pools.at, records) == number);
            EXPECT(memcmp(words.at, usual.book, words.size) == 0 && memcmp(pools.at, usual.pools, pools.size) == 0);
            EXPECT(!missing || (stays(&words) && stays(&pools)));
            take_back(&words);
            take_back(&pools);
        }
}

/* The tally of an answer, and the frame that a place on the tape leads to. */
static void counted_and_found(enum side side, const uint8_t *body, size_t length, const uint64_t *said, size_t frame) {
    const rhoikandra_tally_row none[RHOIKANDRA_TALLY_ROWS] = {{0}};
    const uint64_t zeros[4] = {0, 0, 0, 0};
    for (size_t missing = 0; missing < 2; missing++) {
        rhoikandra_tally_row usual[RHOIKANDRA_TALLY_ROWS] = {{0}};
        struct lent rows = lend(side, none, (RHOIKANDRA_TALLY_ROWS - missing) * sizeof none[0], 1);
        struct lent read = lend(side, body, length, 0), told = lend(side, said, 2 * sizeof(uint64_t), 0);
        rhoikandra_tally(usual, RHOIKANDRA_TALLY_ROWS - missing, body, length, said, 2);
        rhoikandra_tally((rhoikandra_tally_row *)rows.at, RHOIKANDRA_TALLY_ROWS - missing, (const uint8_t *)read.at, length,
                         (const uint64_t *)told.at, 2);
        EXPECT(memcmp(rows.at, usual, rows.size) == 0);
        take_back(&rows);
        take_back(&read);
        take_back(&told);

        /* A tape that ends with the frame, and one that ends within it. */
        uint64_t found[4] = {0, 0, 0, 0};
        const size_t size = length + 2 - missing;
        struct lent part = lend(side, tape + frame, size, 0), place = lend(side, zeros, (4 - missing) * sizeof(uint64_t), 1);
        const size_t dropped = rhoikandra_frame(tape + frame, size, 0, found, 4 - missing);
        EXPECT(rhoikandra_frame((const uint8_t *)part.at, size, 0, (uint64_t *)place.at, 4 - missing) == dropped && dropped <= size);
        EXPECT(memcmp(place.at, found, place.size) == 0);
        take_back(&part);
        take_back(&place);
    }
}

/* What threads put their books and answers to. */
static struct moved alone, own[THREADS];
static const struct moved *shared;

static void day(struct moved *moved) {
    uint64_t found[4] = {0, 0, 0, 0};
    *moved = loaded;
    while (rhoikandra_frame(tape, taped, found[3], found, 4), found[0] == 1)
        step(moved, tape + found[1], found[2] - found[1]);
}

static void *on_its_own(void *moved) {
    day((struct moved *)moved);
    return NULL;
}

static void *on_the_same(void *unused) {
    for (int turn = 0; turn < 20; turn++) {
        uint64_t figures[3], fault[2];
        rhoikandra_figures(shared->book, WORDS, shared->pools, RECORDS, 0, (uint64_t)turn, figures, 3);
        rhoikandra_book_fault(shared->book, WORDS, shared->pools, RECORDS, fault, 2);
        EXPECT(figures[0] == 1 && fault[0] == 0 && fault[1] == 0);
    }
    return unused;
}

static void threads(void) {
    pthread_t thread[THREADS];
    struct lent book = lend(AT_THE_END, &loaded, sizeof loaded, 0);
    shared = (const struct moved *)book.at;
    day(&alone);
    for (int i = 0; i < THREADS; i++)
        EXPECT(pthread_create(&thread[i], NULL, on_its_own, &own[i]) == 0);
    for (int i = 0; i < THREADS; i++)
        EXPECT(pthread_join(thread[i], NULL) == 0 && memcmp(&own[i], &alone, sizeof alone) == 0);
    for (int i = 0; i < THREADS; i++)
        EXPECT(pthread_create(&thread[i], NULL, on_the_same, NULL) == 0);
    for (int i = 0; i < THREADS; i++)
        EXPECT(pthread_join(thread[i], NULL) == 0);
    take_back(&book);
}

/* How deep saving, checking and loading go, on a stack that was painted before each. */
#define PAINTED (256u << 10)
#define PAINT 0xA5

static uint8_t *top;

static void *saved(void *which) {
    size_t records = 0;
    top = (uint8_t *)__builtin_frame_address(0);
    switch (*(int *)which) {
    case 0: EXPECT(rhoikandra_save(loaded.book, loaded.pools, RECORDS, bytes, sizeof bytes) == rhoikandra_saved_size(RECORDS)); break;
    case 1: EXPECT(rhoikandra_saved_check(bytes, rhoikandra_saved_size(RECORDS), &records) == RHOIKANDRA_LOADED && records == RECORDS); break;
    default: EXPECT(rhoikandra_load(loaded.book, loaded.pools, RECORDS, bytes, rhoikandra_saved_size(RECORDS)) == RHOIKANDRA_LOADED);
    }
    return NULL;
}

static void shallow(void) {
    uint8_t *stack = (uint8_t *)mmap(NULL, PAINTED, PROT_READ | PROT_WRITE, MAP_PRIVATE | MAP_ANONYMOUS, -1, 0);
    EXPECT(stack != MAP_FAILED);
    for (int which = 0; which < 3; which++) {
        pthread_t thread;
        pthread_attr_t attributes;
        size_t clean = 0;
        memset(stack, PAINT, PAINTED);
        EXPECT(pthread_attr_init(&attributes) == 0 && pthread_attr_setstack(&attributes, stack, PAINTED) == 0);
        EXPECT(pthread_create(&thread, &attributes, saved, &which) == 0 && pthread_join(thread, NULL) == 0);
        EXPECT(pthread_attr_destroy(&attributes) == 0);
        while (stack[clean] == PAINT)
            clean++;
        EXPECT((size_t)(top - stack) - clean < 20 * 1024);
    }
}

int main(int count, char **paths) {
    size_t frames = 0;
    EXPECT(count == 3);
    page = (size_t)sysconf(_SC_PAGESIZE);
    EXPECT(rhoikandra_load(loaded.book, loaded.pools, RECORDS, bytes, read_file(paths[1], bytes, sizeof bytes)) == RHOIKANDRA_LOADED);
    taped = read_file(paths[2], tape, sizeof tape);
    for (enum side side = AT_THE_END; side <= AT_THE_START; side++) {
        uint64_t found[4] = {0, 0, 0, 0};
        asked(side);
        opened(side);
        while (rhoikandra_frame(tape, taped, found[3], found, 4), found[0] == 1) {
            const uint8_t *body = tape + found[1];
            const size_t length = found[2] - found[1];
            static struct moved moved;
            moved = loaded;
            step(&moved, body, length);
            steps(side, body, length);
            counted_and_found(side, body, length, moved.said, found[1] - 1);
            frames++;
        }
    }
    threads();
    shallow();
    printf("%zu frames\n", frames / 2);
    return EXIT_SUCCESS;
}
