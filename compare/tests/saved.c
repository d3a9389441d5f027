/* Loads a book of two records from a file, saves it to another, and tries every flipped bit and every truncation of its bytes, random
   damage and numbers of records that are not there: each is refused for the right cause, and nothing of it is written. */
#include <stdio.h>
#include <stdlib.h>

#include <rhoikandra_saved.h>

#define RECORDS 2

static uint64_t book[RHOIKANDRA_BOOK_WORDS];
static rhoikandra_pool pools[RECORDS];
static uint8_t bytes[32768], again[32768];

static void expect(int fact, const char *what, size_t at) {
    if (!fact) {
        fprintf(stderr, "%s: %zu\n", what, at);
        exit(EXIT_FAILURE);
    }
}

/* A load that is refused leaves what was filled with a byte as it is. */
static void fill(void) {
    memset(book, 0xA5, sizeof book);
    memset(pools, 0xA5, sizeof pools);
}

static int filled(void) {
    const uint8_t *words = (const uint8_t *)book, *records = (const uint8_t *)pools;
    for (size_t i = 0; i < sizeof book; i++)
        if (words[i] != 0xA5)
            return 0;
    for (size_t i = 0; i < sizeof pools; i++)
        if (records[i] != 0xA5)
            return 0;
    return 1;
}

/* What a flipped bit is told as, by the byte that it stands in. */
static rhoikandra_loaded cause(size_t byte) {
    return byte < 8 ? RHOIKANDRA_DAMAGED_MARK
           : byte < 12 ? RHOIKANDRA_DAMAGED_VERSION
           : byte < 16 ? RHOIKANDRA_DAMAGED_LENGTH
                       : RHOIKANDRA_DAMAGED_CHECKSUM;
}

/* The numbers of a run, drawn as xorshift does. */
static uint64_t drawn(void) {
    static uint64_t last = 2026;
    last ^= last << 13;
    last ^= last >> 7;
    return last ^= last << 17;
}

/* Bytes of which several are others are refused. */
static void damaged(size_t size) {
    static uint8_t before[sizeof bytes];
    memcpy(before, bytes, size);
    for (size_t turn = 0; turn < 5000; turn++) {
        for (size_t bytes_left = 1 + drawn() % 8; bytes_left > 0; bytes_left--)
            bytes[drawn() % size] = (uint8_t)(drawn() >> 32);
        if (memcmp(bytes, before, size) != 0)
            expect(rhoikandra_load(book, pools, RECORDS, bytes, size) != RHOIKANDRA_LOADED, "random damage", turn);
        memcpy(bytes, before, size);
    }
}

/* A number of records is held against the bytes that are there; a version that is not read is told, and what is no saved book. */
static void other_heads(size_t size) {
    static const uint32_t claimed[] = {0, 1, 3, 4096, 4097, 0x0EA0EA0E, 0x80000000, UINT32_MAX}, versions[] = {0, 2, 256, UINT32_MAX};
    static const char *const others[] = {"R#", "day 5 5\n", "RHOIKAN.", "rhoikand"};
    size_t records = 7;
    uint8_t head[RHOIKANDRA_SAVED_HEAD_BYTES];
    memcpy(head, bytes, sizeof head);
    for (size_t i = 0; i < sizeof claimed / sizeof claimed[0]; i++) {
        rhoikandra_put_number(bytes + 12, claimed[i], 4);
        expect(rhoikandra_saved_check(bytes, size, &records) == RHOIKANDRA_DAMAGED_LENGTH, "claimed records", claimed[i]);
        expect(rhoikandra_load(book, pools, RECORDS, bytes, size) == RHOIKANDRA_DAMAGED_LENGTH, "claimed records loaded", claimed[i]);
    }
    memcpy(bytes, head, sizeof head);
    for (size_t i = 0; i < sizeof versions / sizeof versions[0]; i++)
        for (size_t length = 12; length <= size; length += length < 16 ? 1 : size - 16) {
            rhoikandra_put_number(bytes + 8, versions[i], 4);
            expect(rhoikandra_load(book, pools, RECORDS, bytes, length) == RHOIKANDRA_DAMAGED_VERSION, "another version", versions[i]);
        }
    memcpy(bytes, head, sizeof head);
    for (size_t i = 0; i < sizeof others / sizeof others[0]; i++)
        expect(rhoikandra_saved_check((const uint8_t *)others[i], strlen(others[i]), &records) == RHOIKANDRA_DAMAGED_MARK, others[i], i);
    expect(rhoikandra_saved_check(NULL, 0, &records) == RHOIKANDRA_DAMAGED_LENGTH, "nothing at all", 0);
    expect(records == 7, "records of what is refused", records);
}

/* An empty table and the longest are saved and loaded, and one that is longer is not saved. */
static void other_tables(void) {
    static uint64_t saved[RHOIKANDRA_BOOK_WORDS], loaded[RHOIKANDRA_BOOK_WORDS];
    static rhoikandra_pool table[RHOIKANDRA_RECORDS_MAX + 1], again_table[RHOIKANDRA_RECORDS_MAX + 1];
    static uint8_t room[1 << 19];
    static const size_t lengths[] = {0, 1, RHOIKANDRA_RECORDS_MAX};
    for (size_t i = 0; i < RHOIKANDRA_BOOK_WORDS; i++)
        saved[i] = drawn();
    for (size_t i = 0; i <= RHOIKANDRA_RECORDS_MAX; i++) {
        table[i].message = drawn();
        table[i].millions = drawn();
        table[i].original[8] = (uint8_t)drawn();
    }
    for (size_t i = 0; i < sizeof lengths / sizeof lengths[0]; i++) {
        const size_t records = lengths[i], size = rhoikandra_saved_size(records);
        size_t found = 0;
        memset(again_table, 0, sizeof again_table);
        expect(rhoikandra_save(saved, records ? table : NULL, records, room, size) == size, "saved", records);
        expect(rhoikandra_saved_check(room, size, &found) == RHOIKANDRA_LOADED && found == records, "records", records);
        expect(rhoikandra_load(loaded, records ? again_table : NULL, records, room, size) == RHOIKANDRA_LOADED, "loaded", records);
        expect(memcmp(loaded, saved, sizeof saved) == 0 && memcmp(again_table, table, records * sizeof *table) == 0, "the same", records);
        expect(again_table[records].message == 0, "a record more", records);
        room[size - 9] ^= 0x80;
        expect(rhoikandra_load(loaded, again_table, records, room, size) == RHOIKANDRA_DAMAGED_CHECKSUM, "the last byte", records);
    }
}

int main(int count, char **words) {
    size_t size, records = 0;
    FILE *file;
    expect(count == 3, "two files", 0);
    expect(rhoikandra_checksum((const uint8_t *)"123456789", 9) == UINT64_C(0x995DC9BBDF1939FA), "the published vector", 0);
    file = fopen(words[1], "rb");
    expect(file != NULL, words[1], 0);
    size = fread(bytes, 1, sizeof bytes, file);
    fclose(file);

    expect(rhoikandra_saved_check(bytes, size, &records) == RHOIKANDRA_LOADED && records == RECORDS, "records", records);
    expect(rhoikandra_load(book, pools, RECORDS, bytes, size) == RHOIKANDRA_LOADED, "loaded", size);
    expect(rhoikandra_save(book, pools, RECORDS, again, size - 1) == 0 && again[0] == 0, "saved without room", size);
    expect(rhoikandra_save(book, pools, RHOIKANDRA_RECORDS_MAX + 1, again, SIZE_MAX) == 0 && again[0] == 0, "a table too long", size);
    expect(rhoikandra_save(book, pools, RECORDS, again, sizeof again) == size && size == rhoikandra_saved_size(RECORDS), "saved", size);
    file = fopen(words[2], "wb");
    expect(file != NULL && fwrite(again, 1, size, file) == size && fclose(file) == 0, words[2], size);

    fill();
    for (size_t other = 0; other <= RECORDS + 1; other++)
        if (other != RECORDS)
            expect(rhoikandra_load(book, pools, other, bytes, size) == RHOIKANDRA_OTHER_RECORDS, "another table", other);
    for (size_t bit = 0; bit < size * 8; bit++) {
        bytes[bit / 8] ^= (uint8_t)(1 << bit % 8);
        expect(rhoikandra_load(book, pools, RECORDS, bytes, size) == cause(bit / 8), "flipped bit", bit);
        bytes[bit / 8] ^= (uint8_t)(1 << bit % 8);
    }
    for (size_t length = 0; length < size; length++)
        expect(rhoikandra_load(book, pools, RECORDS, bytes, length) == RHOIKANDRA_DAMAGED_LENGTH, "truncation", length);
    expect(rhoikandra_load(book, pools, RECORDS, bytes, size + 1) == RHOIKANDRA_DAMAGED_LENGTH, "a byte more", size + 1);
    other_heads(size);
    damaged(size);
    expect(filled(), "a refused load wrote", 0);
    other_tables();
    printf("%zu flipped bits and %zu truncations refused\n", size * 8, size);
    return EXIT_SUCCESS;
}
