/* The proved allocation book for C (C99 on) and C++ (C++11 on), on Linux on x86-64-v2, that is, on processors with SSE4.2.
   `make install` installs it, and `pkg-config --cflags --libs rhoikandra` says how to link it.

   Threads: the calls keep nothing of their own, so any number of threads may call at once, each on memory of its own. A book with its
   table, an output, what is said and a tally belong to one thread at a time; while none writes a book and its table, several threads
   may ask its figures and its fault.

   Memory: a pointer and a length lend so many elements for the time of a call; where the length is 0 the pointer may be null. Words,
   numbers and records stand at multiples of 8 bytes, a tally at multiples of 4. What a call writes must overlap nothing else that it is
   lent; what it only reads may overlap what it only reads.

   Stack: a thread that calls needs RHOIKANDRA_STACK_BYTES. On fewer a call may end the program at the guard page below the stack.

   Lengths: every call is defined for all of them, and reads and writes nothing outside. What it answers is said beside each.

   numbers.tsv and rules.tsv, installed into PREFIX/share/rhoikandra, say what each number means and what each rule of 41 and 42 is. */
#ifndef RHOIKANDRA_H
#define RHOIKANDRA_H

#include <stddef.h>
#include <stdint.h>

#ifdef __cplusplus
extern "C" {
#endif

/* The stack of a thread that calls: rhoikandra_step takes 90 KiB of it at most, rhoikandra_book_fault 45, rhoikandra_open 41,
   rhoikandra_figures 40, rhoikandra_opening_fault 27 and the others under 1; the rest is for the thread itself and for whoever calls. */
#define RHOIKANDRA_STACK_BYTES (128 * 1024)

/* A book is kept as words: 42 for each of 64 trades (ID 16, its length, seller 4, buyer 4, contra 4, CUSIP 9, settlement, price,
   par, open par), then the number of trades, 32 holidays, their number, subscriber 4, connection 4, the four limits, the last
   message ID, the last outbound number, whether a number was received, the last one, the expected one, and the live pools. A byte
   takes a word. Opening sets open pars, line and live pools itself, and asks nothing of them, nor of words past the trades and the
   holidays that are counted: these it sets to zeros. */
#define RHOIKANDRA_BOOK_WORDS 2740
#define RHOIKANDRA_TRADE_WORDS 42
#define RHOIKANDRA_TRADE_LENGTH 16
#define RHOIKANDRA_TRADE_SELLER 17
#define RHOIKANDRA_TRADE_BUYER 21
#define RHOIKANDRA_TRADE_CONTRA 25
#define RHOIKANDRA_TRADE_CUSIP 29
#define RHOIKANDRA_TRADE_SETTLEMENT 38
#define RHOIKANDRA_TRADE_PRICE 39
#define RHOIKANDRA_TRADE_PAR 40
#define RHOIKANDRA_TRADE_OPEN_PAR 41
#define RHOIKANDRA_COUNT 2688
#define RHOIKANDRA_HOLIDAYS 2689
#define RHOIKANDRA_DAYS 2721
#define RHOIKANDRA_SUBSCRIBER 2722
#define RHOIKANDRA_CONNECTION 2726
#define RHOIKANDRA_LIMITS 2730
#define RHOIKANDRA_LAST 2734
#define RHOIKANDRA_OUTBOUND 2735
#define RHOIKANDRA_LIVE 2739

/* An output has room for a TX and an AA. */
#define RHOIKANDRA_OUTPUT_LENGTH 217

/* The records of the longest table. */
#define RHOIKANDRA_RECORDS_MAX (4 * 1024)

/* A record of the table: the message ID that brought the pool, its lot's ordinal there, its trade, the matched fields as bytes, its
   current face in cents, its lot's kind (1 good, 2 odd, 3 bad) and millions. A record that is not used is zeros. spare is no part of
   a record: no call reads it; an accepted opening clears it, and no frame call moves it (an accepted ON leaves zeros in the records that
   it stores, a CC or DK in all that were live too), so that memory can be saved as it lies. */
typedef struct {
    uint64_t message;
    uint64_t ordinal;
    uint64_t trade;
    uint8_t lot[6];
    uint8_t pool[7];
    uint8_t original[9];
    uint8_t spare[2];
    uint64_t current;
    uint64_t kind;
    uint64_t millions;
} rhoikandra_pool;

/* Opens a book over a table of at most 4,096 records, also of none: 0, or 41 and everything stays. Words that are not
   RHOIKANDRA_BOOK_WORDS, and a longer table, are refused with 41. */
uint64_t rhoikandra_open(uint64_t *book, size_t book_len, rhoikandra_pool *pools, size_t pools_len);

/* What the engine leaves in spare is no part of its promise, so every opening goes by this one, which clears it. */
static inline uint64_t rhoikandra_open_cleared(uint64_t *book, size_t book_len, rhoikandra_pool *pools, size_t pools_len) {
    uint64_t number = rhoikandra_open(book, book_len, pools, pools_len);
    for (size_t i = 0; number == 0 && i < pools_len; i++)
        pools[i].spare[0] = pools[i].spare[1] = 0;
    return number;
}
#define rhoikandra_open rhoikandra_open_cleared

/* Puts a frame's body to a book. said gets three numbers: 0 and the message ID, 1 and the number of a rejection, or 2 and that of a DK,
   by which numbers.tsv says the cause and what to do; then how many bytes at the front of out are the call's own and are to be sent: 0,
   64 or 217. seed is a random number, drawn once or for each call: no answer depends on it, and while whoever sends frames does not know
   it, no choice of pools makes a call slow. Refused, in this order, and everything else stays: time bytes that are not six with 90; words
   that are not RHOIKANDRA_BOOK_WORDS or no book's, a table over 4,096 records and a damaged book with 42; message IDs or outbound numbers
   that are used up with 43; an out under 217 bytes with 44; a body of another length than that of 1 to 250 pools with 10; a sequence that
   is not digits, or is 999999, with 11. A said under three numbers stays, though the call is made; a longer one keeps its tail, and so
   does out. */
void rhoikandra_step(uint64_t *book, size_t book_len, rhoikandra_pool *pools, size_t pools_len, const uint8_t *body, size_t body_len,
                     const uint8_t *time, size_t time_len, uint64_t seed, uint8_t *out, size_t out_len, uint64_t *said, size_t said_len);

/* The figures of a trade, counted from 0: out gets 1, its open par in cents and its standing good millions; or three zeros where there
   is no such trade or rhoikandra_step would say 42. An out under three numbers stays, a longer one keeps its tail. seed as above. */
void rhoikandra_figures(const uint64_t *book, size_t book_len, const rhoikandra_pool *pools, size_t pools_len, size_t trade,
                        uint64_t seed, uint64_t *out, size_t out_len);

/* The first rule that is broken where rhoikandra_open says 41 (of what the words say over a table of so many records), and where
   rhoikandra_step says 42 (of a book and its table): out gets the rule's number, by which rules.tsv says what must hold and what to do,
   and the place of the holiday, trade or record that it is about, counted from 0, or 0 where it is about none; or two zeros where no
   rule is broken. Words that are not RHOIKANDRA_BOOK_WORDS, or of which one is too wide for what it stands for, are rule 101. Nothing
   else is written; an out under two numbers stays, a longer one keeps its tail. They are not for each frame: fields that stand twice
   are sought pair by pair, on a full table for some milliseconds. */
void rhoikandra_opening_fault(const uint64_t *book, size_t book_len, size_t records, uint64_t *out, size_t out_len);
void rhoikandra_book_fault(const uint64_t *book, size_t book_len, const rhoikandra_pool *pools, size_t pools_len, uint64_t *out,
                           size_t out_len);

/* A tally: a row for each of ON, CC, DK and CX, with the answers accepted, rejected and DKed. */
#define RHOIKANDRA_TALLY_ROWS 4
typedef uint32_t rhoikandra_tally_row[3];

/* Counts the answer to a frame's body, from the first two numbers that rhoikandra_step wrote. A full cell stays full; other types and
   the refusals 10, 11, 41 to 44 and 90 are not counted. A tally that is not four rows, a said under two numbers, or numbers that no
   answer says: everything stays. */
void rhoikandra_tally(rhoikandra_tally_row *tally, size_t tally_len, const uint8_t *body, size_t body_len, const uint64_t *said,
                      size_t said_len);

/* Finds the next frame of a tape from a place on: found gets 1, where its body starts and ends, and the place after it; or four
   zeros where there is none, or the place is past the tape. A found under four numbers stays, a longer one keeps its tail. Gives how
   many bytes were dropped: no more than the tape has from that place on. */
size_t rhoikandra_frame(const uint8_t *tape, size_t tape_len, size_t at, uint64_t *found, size_t found_len);

#ifdef __cplusplus
}
#endif

#endif
