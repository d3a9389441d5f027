/* Runs every call on a thread whose stack is what the header states, on a book and a tape from files; then tells how deep each call went,
   by a stack that was painted before it. */
#define _GNU_SOURCE
#include <pthread.h>
#include <stdio.h>
#include <stdlib.h>
#include <string.h>
#include <sys/mman.h>

#include <rhoikandra_saved.h>

#define PAINT 0xA5
#define PAINTED (4u << 20)
#define CALLS 7

static uint64_t loaded[RHOIKANDRA_BOOK_WORDS], book[RHOIKANDRA_BOOK_WORDS], said[3], figures[3], found[4], fault[2];
static rhoikandra_pool loaded_pools[RHOIKANDRA_RECORDS_MAX], pools[RHOIKANDRA_RECORDS_MAX];
static rhoikandra_tally_row tally[RHOIKANDRA_TALLY_ROWS];
static uint8_t out[RHOIKANDRA_OUTPUT_LENGTH], bytes[1u << 20], tape[1u << 20];
static size_t taped;

static const char *const names[CALLS] = {"rhoikandra_open",  "rhoikandra_step",          "rhoikandra_figures",   "rhoikandra_tally",
                                         "rhoikandra_frame", "rhoikandra_opening_fault", "rhoikandra_book_fault"};

static void fail(const char *what) {
    fprintf(stderr, "%s\n", what);
    exit(EXIT_FAILURE);
}

static size_t read_file(const char *path, uint8_t *to, size_t room) {
    FILE *file = fopen(path, "rb");
    size_t size = file ? fread(to, 1, room, file) : 0;
    if (size == 0 || size == room)
        fail(path);
    fclose(file);
    return size;
}

/* One call, on the frame that was found and the loaded book. */
static void call(int which) {
    const uint8_t *body = tape + found[1];
    const size_t length = found[2] - found[1];
    switch (which) {
    case 0: rhoikandra_open(book, RHOIKANDRA_BOOK_WORDS, pools, RHOIKANDRA_RECORDS_MAX); break;
    case 1:
        rhoikandra_step(book, RHOIKANDRA_BOOK_WORDS, pools, RHOIKANDRA_RECORDS_MAX, body, length, (const uint8_t *)"093000", 6, 1, out,
                        sizeof out, said, 3);
        break;
    case 2: rhoikandra_figures(book, RHOIKANDRA_BOOK_WORDS, pools, RHOIKANDRA_RECORDS_MAX, 0, 1, figures, 3); break;
    case 3: rhoikandra_tally(tally, RHOIKANDRA_TALLY_ROWS, body, length, said, 3); break;
    case 4: rhoikandra_frame(tape, taped, found[1] - 1, found, 4); break;
    case 5: rhoikandra_opening_fault(book, RHOIKANDRA_BOOK_WORDS, RHOIKANDRA_RECORDS_MAX, fault, 2); break;
    default: rhoikandra_book_fault(book, RHOIKANDRA_BOOK_WORDS, pools, RHOIKANDRA_RECORDS_MAX, fault, 2);
    }
}

static void set_back(void) {
    memcpy(book, loaded, sizeof book);
    memcpy(pools, loaded_pools, sizeof pools);
}

/* Every call on every frame, from the loaded book, told by its answers. */
static void *all(void *unused) {
    memset(found, 0, sizeof found);
    while (rhoikandra_frame(tape, taped, found[3], found, 4), found[0] == 1) {
        set_back();
        for (int which = CALLS - 1; which > 0; which--)
            call(which);
        printf("%.2s %llu %llu\n", (const char *)tape + found[1], (unsigned long long)said[0], (unsigned long long)said[1]);
        call(0);
    }
    return unused;
}

static void run(pthread_attr_t *attributes, void *(*body)(void *), void *given) {
    pthread_t thread;
    if (pthread_create(&thread, attributes, body, given) != 0 || pthread_join(thread, NULL) != 0)
        fail("no thread");
    pthread_attr_destroy(attributes);
}

static uint8_t *top;

static void *one(void *which) {
    top = (uint8_t *)__builtin_frame_address(0);
    call(*(int *)which);
    return NULL;
}

/* The bytes below the caller's frame that a call used. */
static size_t depth(uint8_t *stack, int which) {
    pthread_attr_t attributes;
    size_t clean = 0;
    memset(stack, PAINT, PAINTED);
    pthread_attr_init(&attributes);
    pthread_attr_setstack(&attributes, stack, PAINTED);
    run(&attributes, one, &which);
    while (stack[clean] == PAINT)
        clean++;
    return (size_t)(top - stack) - clean;
}

int main(int count, char **words) {
    size_t deepest[CALLS] = {0};
    pthread_attr_t attributes;
    if (count != 3)
        fail("a book and a tape");
    if (rhoikandra_load(loaded, loaded_pools, RHOIKANDRA_RECORDS_MAX, bytes, read_file(words[1], bytes, sizeof bytes)) != RHOIKANDRA_LOADED)
        fail(words[1]);
    taped = read_file(words[2], tape, sizeof tape);

    pthread_attr_init(&attributes);
    if (pthread_attr_setstacksize(&attributes, RHOIKANDRA_STACK_BYTES) != 0)
        fail("a stack of the stated size");
    run(&attributes, all, NULL);

    uint8_t *stack = (uint8_t *)mmap(NULL, PAINTED, PROT_READ | PROT_WRITE, MAP_PRIVATE | MAP_ANONYMOUS, -1, 0);
    if (stack == MAP_FAILED)
        fail("no memory");
    memset(found, 0, sizeof found);
    while (rhoikandra_frame(tape, taped, found[3], found, 4), found[0] == 1)
        for (int which = 0; which < CALLS; which++) {
            size_t used;
            set_back();
            used = depth(stack, which);
            deepest[which] = used > deepest[which] ? used : deepest[which];
        }
    printf("stated %d\n", RHOIKANDRA_STACK_BYTES);
    for (int which = 0; which < CALLS; which++)
        printf("%s %zu\n", names[which], deepest[which]);
    return EXIT_SUCCESS;
}
