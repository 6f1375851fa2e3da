/* The layout of the store (docs/STORE.md) in one flat array, with offsets for addresses: a header,
   two regions of buckets, and blocks behind them, with chains by FNV-1a. Puts so many pairs, with
   the keys of crates/store_bench, looks them up in the same order, and prints what a look-up with a
   copy of the value takes: the least of several runs, in nanoseconds.
   usage: flat_store PAIRS GETS RUNS */
#include <endian.h>
#include <stdint.h>
#include <stdio.h>
#include <stdlib.h>
#include <string.h>
#include <time.h>

enum { PAGE = 4096, ARRAY_FIELD = 144, BUCKETS_FIELD = 152, PAIRS_FIELD = 160, FIRST = 512 };
enum { HEAD = 16, KEY = 16, VALUE = 100, BLOCK = 256, JUMP = 7919 };

static unsigned char *store;
static uint64_t regions[2];

static double now(void)
{
    struct timespec time;
    clock_gettime(CLOCK_PROCESS_CPUTIME_ID, &time);
    return time.tv_sec * 1e9 + time.tv_nsec;
}

static uint64_t word_at(uint64_t at)
{
    uint64_t word;
    memcpy(&word, store + at, sizeof word);
    return be64toh(word);
}

static void set_word(uint64_t at, uint64_t word)
{
    word = htobe64(word);
    memcpy(store + at, &word, sizeof word);
}

static void set_length(uint64_t at, uint32_t length)
{
    length = htobe32(length);
    memcpy(store + at, &length, sizeof length);
}

static uint32_t length_at(uint64_t at)
{
    uint32_t length;
    memcpy(&length, store + at, sizeof length);
    return be32toh(length);
}

static uint64_t hash_of(const unsigned char *key, size_t length)
{
    uint64_t hash = 0xcbf29ce484222325;
    for (size_t it = 0; it < length; it++)
        hash = (hash ^ key[it]) * 0x100000001b3;
    return hash;
}

static void make_key(uint32_t number, unsigned char *key)
{
    unsigned __int128 spread = (unsigned __int128)0x9e3779b97f4a7c15 << 64 | 0xf39cc0605cedc835;
    unsigned __int128 made = number * spread;
    uint64_t halves[2] = {htobe64(made >> 64), htobe64(made)};
    memcpy(key, halves, KEY);
}

static uint64_t bucket_of(const unsigned char *key, size_t length)
{
    return word_at(ARRAY_FIELD) + hash_of(key, length) % word_at(BUCKETS_FIELD) * 8;
}

/* Puts a block in front of its chain. */
static void link_block(uint64_t block)
{
    uint64_t bucket = bucket_of(store + block + HEAD, length_at(block + 8));
    set_word(block, word_at(bucket));
    set_word(bucket, block);
}

static void double_array(void)
{
    uint64_t old = word_at(ARRAY_FIELD), buckets = word_at(BUCKETS_FIELD);
    set_word(ARRAY_FIELD, old == regions[0] ? regions[1] : regions[0]);
    set_word(BUCKETS_FIELD, 2 * buckets);
    memset(store + word_at(ARRAY_FIELD), 0, 16 * buckets);
    for (uint64_t it = 0; it < buckets; it++)
        for (uint64_t block = word_at(old + 8 * it), next; block; block = next) {
            next = word_at(block);
            link_block(block);
        }
}

static void put_new(uint32_t number)
{
    uint64_t block = word_at(0), pairs = word_at(PAIRS_FIELD) + 1;
    set_length(block + 8, KEY);
    set_length(block + 12, VALUE);
    make_key(number, store + block + HEAD);
    number = htobe32(number);
    memcpy(store + block + HEAD + KEY, &number, sizeof number);
    set_word(0, block + BLOCK);
    link_block(block);
    set_word(PAIRS_FIELD, pairs);
    if (pairs > word_at(BUCKETS_FIELD))
        double_array();
}

static uint32_t get(const unsigned char *key, unsigned char *value)
{
    for (uint64_t block = word_at(bucket_of(key, KEY)); block; block = word_at(block))
        if (length_at(block + 8) == KEY && !memcmp(store + block + HEAD, key, KEY)) {
            uint32_t length = length_at(block + 12);
            memcpy(value, store + block + HEAD + KEY, length);
            return length;
        }
    return 0;
}

static void make_store(uint32_t pairs)
{
    uint64_t array = FIRST * 8;
    while (array < (uint64_t)pairs * 8)
        array *= 2;
    size_t bytes = PAGE + 2 * array + (size_t)pairs * BLOCK;
    store = malloc(bytes);
    if (!store)
        exit(2);
    memset(store, 0, bytes);
    regions[0] = PAGE;
    regions[1] = PAGE + array;
    set_word(0, PAGE + 2 * array);
    set_word(ARRAY_FIELD, regions[0]);
    set_word(BUCKETS_FIELD, FIRST);
    for (uint32_t number = 0; number < pairs; number++)
        put_new(number);
}

int main(int count, char **words)
{
    if (count != 4)
        return 1;
    uint32_t pairs = atol(words[1]), gets = atol(words[2]), runs = atol(words[3]), hits = 0;
    uint64_t sum = 0, most = (uint64_t)gets * runs * 255;
    unsigned char key[KEY], value[VALUE];
    double least = 0;
    make_store(pairs);
    for (uint32_t run = 0; run < runs; run++) {
        double start = now();
        for (uint32_t turn = 0; turn < gets; turn++) {
            make_key(turn * JUMP % pairs, key);
            hits += get(key, value) == VALUE;
            sum += value[3];
        }
        double taken = (now() - start) / gets;
        if (run == 0 || taken < least)
            least = taken;
    }
    /* Each was there, and a byte of each value is used, so that no copy is left out. */
    if (hits != gets * runs || sum > most)
        return 3;
    printf("%.3f\n", least);
    return 0;
}
