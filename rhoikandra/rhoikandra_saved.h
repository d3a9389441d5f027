/* A book on a disk, for C and C++ programs: the bytes that the Rust crate's Book::save writes and Book::load reads. Not proved.

   The bytes are a mark of eight, the version of the format and the number of records (32 bits each), the words of the book, the
   records (six numbers, then the matched fields), and a checksum over all of these. Numbers are little-endian. The checksum is the CRC
   of 64 bits that xz uses: it sees every change of one bit and every one that lies within 64 bits, and of other damage all but one in
   2^64. The engine's 42 tells a book that can no longer have come about by calls; a changed price may be a sound other book, and the
   checksum alone tells that.

   After a call save the book: write the bytes to a new file, and after them those that are to be sent, sync it, rename it over the last
   one, and sync the folder; then send them. After a restart send them again; rhoikandra_saved_size says where the book ends in the file.
   Nothing is allocated; a call takes under 20 KiB of stack. */
#ifndef RHOIKANDRA_SAVED_H
#define RHOIKANDRA_SAVED_H

#include <string.h>

#include "rhoikandra.h"

#define RHOIKANDRA_SAVED_MARK "RHOIKAND"
#define RHOIKANDRA_SAVED_VERSION 1
#define RHOIKANDRA_SAVED_HEAD_BYTES 16
#define RHOIKANDRA_SAVED_POOL_BYTES 70
#define RHOIKANDRA_SAVED_CHECKSUM_BYTES 8

/* What loading finds: 0, or what is wrong. */
typedef enum {
    RHOIKANDRA_LOADED = 0,
    RHOIKANDRA_DAMAGED_MARK,
    RHOIKANDRA_DAMAGED_VERSION,
    RHOIKANDRA_DAMAGED_LENGTH,
    RHOIKANDRA_DAMAGED_CHECKSUM,
    RHOIKANDRA_OTHER_RECORDS
} rhoikandra_loaded;

/* The same as a sentence. */
static inline const char *rhoikandra_loaded_text(rhoikandra_loaded loaded) {
    switch (loaded) {
    case RHOIKANDRA_LOADED: return "a saved book";
    case RHOIKANDRA_DAMAGED_MARK: return "not a saved book: it does not begin with RHOIKAND; check the file's name";
    case RHOIKANDRA_DAMAGED_VERSION: return "a saved book of another version; load it with the library that saved it";
    case RHOIKANDRA_DAMAGED_LENGTH: return "a saved book that is not as long as it was saved; restore the last good copy";
    case RHOIKANDRA_DAMAGED_CHECKSUM: return "a saved book that changed since it was saved; restore the last good copy";
    case RHOIKANDRA_OTHER_RECORDS: return "a saved book whose table has another number of records; lend it a table of that length";
    }
    return "no answer of rhoikandra_load";
}

/* The bytes of a saved book with a table of so many records. */
static inline size_t rhoikandra_saved_size(size_t records) {
    return RHOIKANDRA_SAVED_HEAD_BYTES + 8 * (size_t)RHOIKANDRA_BOOK_WORDS + RHOIKANDRA_SAVED_POOL_BYTES * records +
           RHOIKANDRA_SAVED_CHECKSUM_BYTES;
}

/* Writes the lowest bytes of a number, the lowest first, and gives the place after them. */
static inline uint8_t *rhoikandra_put_number(uint8_t *at, uint64_t number, int bytes) {
    for (; bytes > 0; bytes--, number >>= 8)
        *at++ = (uint8_t)(number & 0xFF);
    return at;
}

static inline uint64_t rhoikandra_number_at(const uint8_t *at, int bytes) {
    uint64_t number = 0;
    while (bytes-- > 0)
        number = number << 8 | at[bytes];
    return number;
}

/* The checksum of bytes. table[k] has what a byte does to it that stands k bytes before the last, so that eight go in one turn. */
static inline uint64_t rhoikandra_checksum(const uint8_t *bytes, size_t size) {
    uint64_t table[8][256], sum = ~(uint64_t)0;
    for (unsigned byte = 0; byte < 256; byte++) {
        uint64_t rest = byte;
        for (int bit = 0; bit < 8; bit++)
            rest = rest >> 1 ^ (rest & 1 ? UINT64_C(0xC96C5795D7870F42) : 0);
        table[0][byte] = rest;
    }
    for (int k = 1; k < 8; k++)
        for (unsigned byte = 0; byte < 256; byte++)
            table[k][byte] = table[0][table[k - 1][byte] & 0xFF] ^ table[k - 1][byte] >> 8;
    for (; size >= 8; size -= 8, bytes += 8)
        sum = table[7][(sum ^ bytes[0]) & 0xFF] ^ table[6][(sum >> 8 ^ bytes[1]) & 0xFF] ^ table[5][(sum >> 16 ^ bytes[2]) & 0xFF] ^
              table[4][(sum >> 24 ^ bytes[3]) & 0xFF] ^ table[3][(sum >> 32 ^ bytes[4]) & 0xFF] ^ table[2][(sum >> 40 ^ bytes[5]) & 0xFF] ^
              table[1][(sum >> 48 ^ bytes[6]) & 0xFF] ^ table[0][(sum >> 56 ^ bytes[7]) & 0xFF];
    for (; size > 0; size--, bytes++)
        sum = table[0][(sum ^ *bytes) & 0xFF] ^ sum >> 8;
    return ~sum;
}

/* The book as bytes for a disk: gives how many were written, rhoikandra_saved_size(records); or 0 where size is less, or the table
   is longer than a table may be, and nothing is written. */
static inline size_t rhoikandra_save(const uint64_t *book, const rhoikandra_pool *pools, size_t records, uint8_t *bytes, size_t size) {
    uint8_t *at = bytes;
    if (records > RHOIKANDRA_RECORDS_MAX || size < rhoikandra_saved_size(records))
        return 0;
    memcpy(at, RHOIKANDRA_SAVED_MARK, 8);
    at = rhoikandra_put_number(at + 8, RHOIKANDRA_SAVED_VERSION, 4);
    at = rhoikandra_put_number(at, records, 4);
    for (size_t i = 0; i < RHOIKANDRA_BOOK_WORDS; i++)
        at = rhoikandra_put_number(at, book[i], 8);
    for (size_t i = 0; i < records; i++) {
        const rhoikandra_pool *pool = pools + i;
        const uint64_t numbers[6] = {pool->message, pool->ordinal, pool->trade, pool->current, pool->kind, pool->millions};
        for (int k = 0; k < 6; k++)
            at = rhoikandra_put_number(at, numbers[k], 8);
        memcpy(at, pool->lot, 6);
        memcpy(at + 6, pool->pool, 7);
        memcpy(at + 13, pool->original, 9);
        at += 22;
    }
    rhoikandra_put_number(at, rhoikandra_checksum(bytes, (size_t)(at - bytes)), 8);
    return rhoikandra_saved_size(records);
}

/* What is wrong with bytes from a disk, if anything is. Where nothing is, records gets the number of records of the table. */
static inline rhoikandra_loaded rhoikandra_saved_check(const uint8_t *bytes, size_t size, size_t *records) {
    uint64_t count;
    if (size > 0 && memcmp(bytes, RHOIKANDRA_SAVED_MARK, size < 8 ? size : 8) != 0)
        return RHOIKANDRA_DAMAGED_MARK;
    if (size >= 12 && rhoikandra_number_at(bytes + 8, 4) != RHOIKANDRA_SAVED_VERSION)
        return RHOIKANDRA_DAMAGED_VERSION;
    if (size < RHOIKANDRA_SAVED_HEAD_BYTES)
        return RHOIKANDRA_DAMAGED_LENGTH;
    count = rhoikandra_number_at(bytes + 12, 4);
    if (size != rhoikandra_saved_size((size_t)count))
        return RHOIKANDRA_DAMAGED_LENGTH;
    if (rhoikandra_checksum(bytes, size - 8) != rhoikandra_number_at(bytes + size - 8, 8))
        return RHOIKANDRA_DAMAGED_CHECKSUM;
    *records = (size_t)count;
    return RHOIKANDRA_LOADED;
}

/* A book from such bytes into words and a table of as many records as were saved. Where something is wrong nothing is written. Whether
   the book is a sound one is judged by the next call. */
static inline rhoikandra_loaded rhoikandra_load(uint64_t *book, rhoikandra_pool *pools, size_t records, const uint8_t *bytes, size_t size) {
    size_t saved = 0;
    const uint8_t *at;
    rhoikandra_loaded loaded = rhoikandra_saved_check(bytes, size, &saved);
    if (loaded != RHOIKANDRA_LOADED)
        return loaded;
    if (saved != records)
        return RHOIKANDRA_OTHER_RECORDS;
    at = bytes + RHOIKANDRA_SAVED_HEAD_BYTES;
    for (size_t i = 0; i < RHOIKANDRA_BOOK_WORDS; i++, at += 8)
        book[i] = rhoikandra_number_at(at, 8);
    for (size_t i = 0; i < records; i++, at += RHOIKANDRA_SAVED_POOL_BYTES) {
        rhoikandra_pool *pool = pools + i;
        pool->message = rhoikandra_number_at(at, 8);
        pool->ordinal = rhoikandra_number_at(at + 8, 8);
        pool->trade = rhoikandra_number_at(at + 16, 8);
        pool->current = rhoikandra_number_at(at + 24, 8);
        pool->kind = rhoikandra_number_at(at + 32, 8);
        pool->millions = rhoikandra_number_at(at + 40, 8);
        memcpy(pool->lot, at + 48, 6);
        memcpy(pool->pool, at + 54, 7);
        memcpy(pool->original, at + 61, 9);
        memset(pool->spare, 0, 2);
    }
    return RHOIKANDRA_LOADED;
}

#endif
