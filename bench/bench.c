/*
 * bench COUNT: measures the library's entries, OpenSSL's and nettle's DES, and plain C over OpenSSL's DES, on the same
 * inputs in the same run. Each kind is run in five rounds, all its sides in each round; the middle time is printed, in
 * thread CPU time. Every side's results are summed, and a side whose sum is another ends the run with status 1.
 * A line for each kind and side: kind, side, operations, seconds, unit.
 */
#define OPENSSL_SUPPRESS_DEPRECATED
#define _POSIX_C_SOURCE 200809L
#include <nettle/des.h>
#include <openssl/crypto.h>
#include <openssl/des.h>
#include <stdio.h>
#include <stdlib.h>
#include <string.h>
#include <time.h>

#include "chizuregwo.h"
#include "plain.h"

enum { ROUNDS = 5, INPUTS = 1024, TEXTS = 64, MOST_SIDES = 3 };

/* The inputs, made before anything is measured. */
static uint8_t keys[INPUTS][16], blocks[INPUTS][8], serials[INPUTS][10];
static uint8_t texts[TEXTS][1024], capitals[TEXTS][1024];
static uint8_t pins[INPUTS][12], cards[INPUTS][16];
static size_t pin_sizes[INPUTS];
static uint8_t message[512];
static size_t message_size;

/* splitmix64 */
static uint64_t state = 20241115;
static uint64_t random64(void)
{
    uint64_t z = state += 0x9E3779B97F4A7C15;
    z = (z ^ z >> 30) * 0xBF58476D1CE4E5B9;
    z = (z ^ z >> 27) * 0x94D049BB133111EB;
    return z ^ z >> 31;
}

static void fill(uint8_t *bytes, size_t size)
{
    for (size_t i = 0; i < size; i++)
        bytes[i] = (uint8_t)random64();
}

/* A record of the message. */
static void put_field(unsigned field, const char *body)
{
    size_t size = strlen(body);
    uint8_t *at = message + message_size;
    at[0] = (uint8_t)size;
    at[1] = (uint8_t)(size >> 8);
    at[2] = (uint8_t)field;
    at[3] = 0;
    memcpy(at + 4, body, size);
    message_size += 4 + size;
}

/* Sixteen listed fields and four others. */
static void make_message(void)
{
    put_field(0, "0200");
    put_field(2, "4219876543210987");
    put_field(3, "000000");
    put_field(4, "000000012550");
    put_field(7, "1115163012");
    put_field(11, "000123");
    put_field(12, "163012");
    put_field(18, "5411");
    put_field(22, "051");
    put_field(25, "00");
    put_field(28, "D00000150");
    put_field(32, "48020000");
    put_field(33, "00010000");
    put_field(37, "611516000123");
    put_field(38, "a1B2c3");
    put_field(39, "00");
    put_field(41, "SHOP0042");
    put_field(42, "Joe's Fish-&Chi");
    put_field(49, "156");
    put_field(90, "020000012311151630120000480200000000010000");
}

/* A counter with ten one bits. */
static uint32_t ten_ones(void)
{
    uint32_t counter = 0;
    while (__builtin_popcount(counter) < 10)
        counter |= 1u << random64() % 21;
    return counter;
}

static void make_inputs(void)
{
    static const char from[] = "AZaz09@[`{/:,.  - xYqwertyuiop";
    fill((uint8_t *)keys, sizeof keys);
    fill((uint8_t *)blocks, sizeof blocks);
    fill((uint8_t *)serials, sizeof serials);
    for (int i = 0; i < INPUTS; i++) {
        uint32_t counter = ten_ones();
        serials[i][7] = (uint8_t)((serials[i][7] & 0xE0) | counter >> 16);
        serials[i][8] = (uint8_t)(counter >> 8);
        serials[i][9] = (uint8_t)counter;
        pin_sizes[i] = 4 + random64() % 9;
        for (size_t j = 0; j < sizeof pins[i]; j++)
            pins[i][j] = (uint8_t)('0' + random64() % 10);
        for (size_t j = 0; j < sizeof cards[i]; j++)
            cards[i][j] = (uint8_t)('0' + random64() % 10);
    }
    for (int i = 0; i < TEXTS; i++)
        for (size_t j = 0; j < sizeof texts[i]; j++) {
            texts[i][j] = (uint8_t)from[random64() % (sizeof from - 1)];
            capitals[i][j] = (uint8_t)('A' + random64() % 26);
        }
    make_message();
}

/* Ends the run where an entry that must be done was refused. */
static void must(int number, const char *what)
{
    if (number != 0) {
        printf("bench: %s: refused %d\n", what, number);
        exit(1);
    }
}

/* Adds a result to a sum that depends on the order. */
static uint64_t add(uint64_t sum, const uint8_t result[8])
{
    uint64_t word;
    memcpy(&word, result, 8);
    return (sum << 1 | sum >> 63) ^ word;
}

/* ---- One round of each kind and side: COUNT operations, and the sum of their results. ---- */

static uint64_t library_des(size_t count)
{
    uint64_t sum = 0;
    uint8_t out[8];
    for (size_t i = 0; i < count; i++) {
        must((int)czg_encrypt(keys[i % INPUTS], 8, blocks[i % INPUTS], 8, out, 8).number, "czg_encrypt");
        sum = add(sum, out);
    }
    return sum;
}

static uint64_t openssl_des(size_t count)
{
    uint64_t sum = 0;
    uint8_t out[8];
    for (size_t i = 0; i < count; i++) {
        DES_key_schedule schedule;
        DES_set_key_unchecked((const_DES_cblock *)keys[i % INPUTS], &schedule);
        DES_ecb_encrypt((const_DES_cblock *)blocks[i % INPUTS], (DES_cblock *)out, &schedule, DES_ENCRYPT);
        sum = add(sum, out);
    }
    return sum;
}

static uint64_t nettle_des(size_t count)
{
    uint64_t sum = 0;
    uint8_t out[8];
    for (size_t i = 0; i < count; i++) {
        struct des_ctx schedule;
        des_set_key(&schedule, keys[i % INPUTS]);
        des_encrypt(&schedule, 8, out, blocks[i % INPUTS]);
        sum = add(sum, out);
    }
    return sum;
}

static uint64_t library_triple(size_t count)
{
    uint64_t sum = 0;
    uint8_t out[8];
    for (size_t i = 0; i < count; i++) {
        must((int)czg_encrypt(keys[i % INPUTS], 16, blocks[i % INPUTS], 8, out, 8).number, "czg_encrypt");
        sum = add(sum, out);
    }
    return sum;
}

static uint64_t openssl_triple(size_t count)
{
    uint64_t sum = 0;
    uint8_t out[8];
    for (size_t i = 0; i < count; i++) {
        DES_key_schedule left, right;
        DES_set_key_unchecked((const_DES_cblock *)keys[i % INPUTS], &left);
        DES_set_key_unchecked((const_DES_cblock *)(keys[i % INPUTS] + 8), &right);
        DES_ecb2_encrypt((const_DES_cblock *)blocks[i % INPUTS], (DES_cblock *)out, &left, &right, DES_ENCRYPT);
        sum = add(sum, out);
    }
    return sum;
}

static uint64_t nettle_triple(size_t count)
{
    uint64_t sum = 0;
    uint8_t out[8];
    for (size_t i = 0; i < count; i++) {
        struct des_ctx left, right;
        des_set_key(&left, keys[i % INPUTS]);
        des_set_key(&right, keys[i % INPUTS] + 8);
        des_encrypt(&left, 8, out, blocks[i % INPUTS]);
        des_decrypt(&right, 8, out, out);
        des_encrypt(&left, 8, out, out);
        sum = add(sum, out);
    }
    return sum;
}

static uint64_t library_text_mac(size_t count)
{
    uint64_t sum = 0;
    uint8_t out[8];
    for (size_t i = 0; i < count; i++) {
        must((int)czg_text_mac(keys[i % INPUTS], 8, capitals[i % TEXTS], 1024, out, 8).number, "czg_text_mac");
        sum = add(sum, out);
    }
    return sum;
}

static uint64_t plain_text_macs(size_t count)
{
    uint64_t sum = 0;
    uint8_t out[8];
    for (size_t i = 0; i < count; i++) {
        must(plain_text_mac(keys[i % INPUTS], capitals[i % TEXTS], 1024, out), "plain_text_mac");
        sum = add(sum, out);
    }
    return sum;
}

/* nettle's DES and the plain cleaning. */
static uint64_t nettle_text_mac(size_t count)
{
    uint64_t sum = 0;
    for (size_t i = 0; i < count; i++) {
        struct des_ctx schedule;
        uint8_t cleaned[1024 + 8], value[8] = {0};
        size_t length;
        must(plain_clean(capitals[i % TEXTS], 1024, cleaned, &length), "plain_clean");
        memset(cleaned + length, 0, 8);
        des_set_key(&schedule, keys[i % INPUTS]);
        for (size_t at = 0; at < length; at += 8) {
            for (int j = 0; j < 8; j++)
                value[j] ^= cleaned[at + (size_t)j];
            des_encrypt(&schedule, 8, value, value);
        }
        sum = add(sum, value);
    }
    return sum;
}

static uint64_t library_message_mac(size_t count)
{
    uint64_t sum = 0;
    uint8_t out[8];
    for (size_t i = 0; i < count; i++) {
        must((int)czg_message_mac(keys[i % INPUTS], 8, message, message_size, out, 8).number, "czg_message_mac");
        sum = add(sum, out);
    }
    return sum;
}

static uint64_t plain_message_macs(size_t count)
{
    uint64_t sum = 0;
    uint8_t out[8];
    for (size_t i = 0; i < count; i++) {
        must(plain_message_mac(keys[i % INPUTS], message, message_size, out), "plain_message_mac");
        sum = add(sum, out);
    }
    return sum;
}

static uint64_t library_host_key(size_t count)
{
    uint64_t sum = 0;
    uint8_t out[8];
    for (size_t i = 0; i < count; i++) {
        must((int)czg_host_key(keys[i % INPUTS], 16, serials[i % INPUTS], 10, out, 8).number, "czg_host_key");
        sum = add(sum, out);
    }
    return sum;
}

static uint64_t plain_host_keys(size_t count)
{
    uint64_t sum = 0;
    uint8_t out[8];
    for (size_t i = 0; i < count; i++) {
        must(plain_host_key(keys[i % INPUTS], serials[i % INPUTS], 8, out), "plain_host_key");
        sum = add(sum, out);
    }
    return sum;
}

static uint64_t library_double_host_key(size_t count)
{
    uint64_t sum = 0;
    uint8_t out[16];
    for (size_t i = 0; i < count; i++) {
        must((int)czg_double_host_key(keys[i % INPUTS], 16, serials[i % INPUTS], 10, out, 16).number, "czg_double_host_key");
        sum = add(add(sum, out), out + 8);
    }
    return sum;
}

static uint64_t plain_double_host_keys(size_t count)
{
    uint64_t sum = 0;
    uint8_t out[16];
    for (size_t i = 0; i < count; i++) {
        must(plain_host_key(keys[i % INPUTS], serials[i % INPUTS], 16, out), "plain_host_key");
        sum = add(add(sum, out), out + 8);
    }
    return sum;
}

/* From loading, or from the end of the terminal again to loading. */
static uint64_t library_next_key(size_t count)
{
    uint64_t sum = 0;
    uint8_t record[CZG_RECORD_SIZE], key[8], serial[10];
    for (size_t i = 0; i < count; i++) {
        if (i % CZG_TERMINAL_KEYS == 0)
            must((int)czg_terminal_load(keys[0], 8, serials[0], 10, record, sizeof record).number, "czg_terminal_load");
        must((int)czg_terminal_next_key(record, sizeof record, key, 8, serial, 10).number, "czg_terminal_next_key");
        sum = add(add(sum, key), serial + 2);
    }
    return sum;
}

static uint64_t plain_next_keys(size_t count)
{
    uint64_t sum = 0;
    plain_terminal terminal;
    uint8_t key[8], serial[10];
    for (size_t i = 0; i < count; i++) {
        if (i % CZG_TERMINAL_KEYS == 0)
            plain_load(&terminal, keys[0], 8, serials[0]);
        must(plain_next_key(&terminal, key, serial), "plain_next_key");
        sum = add(add(sum, key), serial + 2);
    }
    return sum;
}

static uint64_t library_double_next_key(size_t count)
{
    uint64_t sum = 0;
    uint8_t record[CZG_DOUBLE_RECORD_SIZE], key[16], serial[10];
    for (size_t i = 0; i < count; i++) {
        if (i % CZG_TERMINAL_KEYS == 0)
            must((int)czg_double_terminal_load(keys[0], 16, serials[0], 10, record, sizeof record).number, "czg_double_terminal_load");
        must((int)czg_double_terminal_next_key(record, sizeof record, key, 16, serial, 10).number, "czg_double_terminal_next_key");
        sum = add(add(add(sum, key), key + 8), serial + 2);
    }
    return sum;
}

static uint64_t plain_double_next_keys(size_t count)
{
    uint64_t sum = 0;
    plain_terminal terminal;
    uint8_t key[16], serial[10];
    for (size_t i = 0; i < count; i++) {
        if (i % CZG_TERMINAL_KEYS == 0)
            plain_load(&terminal, keys[0], 16, serials[0]);
        must(plain_next_key(&terminal, key, serial), "plain_next_key");
        sum = add(add(add(sum, key), key + 8), serial + 2);
    }
    return sum;
}

static uint64_t library_pin(size_t count)
{
    uint64_t sum = 0;
    uint8_t out[8];
    for (size_t i = 0; i < count; i++) {
        size_t n = i % INPUTS;
        must((int)czg_pin_encrypt_with_card(keys[n], 16, pins[n], pin_sizes[n], cards[n], 16, out, 8).number, "czg_pin_encrypt");
        sum = add(sum, out);
    }
    return sum;
}

static uint64_t plain_pin(size_t count)
{
    uint64_t sum = 0;
    uint8_t out[8];
    for (size_t i = 0; i < count; i++) {
        size_t n = i % INPUTS;
        must(plain_pin_encrypt(keys[n], 16, pins[n], pin_sizes[n], cards[n], 16, out), "plain_pin_encrypt");
        sum = add(sum, out);
    }
    return sum;
}

static uint64_t library_clear_pin(size_t count)
{
    uint64_t sum = 0;
    uint8_t block[8], pin[CZG_MOST_PIN + 8] = {0};
    for (size_t i = 0; i < count; i++) {
        size_t n = i % INPUTS;
        must((int)czg_pin_make_with_card(pins[n], pin_sizes[n], cards[n], 16, block, 8).number, "czg_pin_make");
        must((int)czg_pin_read_with_card(block, 8, cards[n], 16, pin, 12).number, "czg_pin_read");
        sum = add(add(sum, block), pin);
    }
    return sum;
}

static uint64_t library_clean(size_t count)
{
    uint64_t sum = 0;
    uint8_t out[1024];
    for (size_t i = 0; i < count; i++) {
        czg_text_answer answer = czg_clean(texts[i % TEXTS], 1024, out, sizeof out);
        must((int)answer.number, "czg_clean");
        sum = add(add(sum, out), out + answer.length - 8);
    }
    return sum;
}

static uint64_t plain_cleaning(size_t count)
{
    uint64_t sum = 0;
    uint8_t out[1024];
    for (size_t i = 0; i < count; i++) {
        size_t length;
        must(plain_clean(texts[i % TEXTS], 1024, out, &length), "plain_clean");
        sum = add(add(sum, out), out + length - 8);
    }
    return sum;
}

/* ---- The kinds ---- */

typedef struct side {
    const char *name;
    uint64_t (*run)(size_t count);
} side;

typedef struct kind {
    const char *name;
    const char *unit;   /* what is counted */
    size_t each;        /* units in one operation */
    size_t divisor;     /* operations: COUNT through this */
    side sides[MOST_SIDES];
} kind;

static const kind kinds[] = {
    {"DES, a fresh key for each block", "blocks", 1, 1,
     {{"library", library_des}, {"OpenSSL", openssl_des}, {"nettle", nettle_des}}},
    {"triple DES, a fresh key for each block", "blocks", 1, 2,
     {{"library", library_triple}, {"OpenSSL", openssl_triple}, {"nettle", nettle_triple}}},
    {"DES with one key: MAC of 128 blocks", "blocks", 128, 100,
     {{"library", library_text_mac}, {"plain C, OpenSSL", plain_text_macs}, {"plain C, nettle", nettle_text_mac}}},
    {"MAC of a message of 20 fields", "messages", 1, 10,
     {{"library", library_message_mac}, {"plain C, OpenSSL", plain_message_macs}}},
    {"host key, counter with ten one bits", "keys", 1, 10,
     {{"library", library_host_key}, {"plain C, OpenSSL", plain_host_keys}}},
    {"terminal's next key, from loading on", "keys", 1, 1,
     {{"library", library_next_key}, {"plain C, OpenSSL", plain_next_keys}}},
    {"double-length host key, ten one bits", "keys", 1, 20,
     {{"library", library_double_host_key}, {"plain C, OpenSSL", plain_double_host_keys}}},
    {"double-length next key, from loading on", "keys", 1, 2,
     {{"library", library_double_next_key}, {"plain C, OpenSSL", plain_double_next_keys}}},
    {"PIN block, triple DES, with card number", "blocks", 1, 2,
     {{"library", library_pin}, {"plain C, OpenSSL", plain_pin}}},
    {"clear PIN block made and read", "blocks", 1, 1, {{"library", library_clear_pin}}},
    {"cleaning", "bytes", 1024, 40, {{"library", library_clean}, {"plain C", plain_cleaning}}},
};

/* Seconds of CPU time of this thread. */
static double seconds(void)
{
    struct timespec now;
    clock_gettime(CLOCK_THREAD_CPUTIME_ID, &now);
    return (double)now.tv_sec + (double)now.tv_nsec * 1e-9;
}

static int by_size(const void *a, const void *b)
{
    double x = *(const double *)a, y = *(const double *)b;
    return (x > y) - (x < y);
}

/* Measures one kind and prints a line for each side. */
static void measure(const kind *kind, size_t count)
{
    double times[MOST_SIDES][ROUNDS];
    size_t operations = count / kind->divisor > 0 ? count / kind->divisor : 1;
    for (int round = 0; round < ROUNDS; round++) {
        uint64_t first = 0;
        for (int i = 0; i < MOST_SIDES && kind->sides[i].run != NULL; i++) {
            double start = seconds();
            uint64_t sum = kind->sides[i].run(operations);
            times[i][round] = seconds() - start;
            if (i == 0)
                first = sum;
            if (sum != first) {
                printf("bench: %s: %s has other results than the library\n", kind->name, kind->sides[i].name);
                exit(1);
            }
        }
    }
    for (int i = 0; i < MOST_SIDES && kind->sides[i].run != NULL; i++) {
        qsort(times[i], ROUNDS, sizeof times[i][0], by_size);
        printf("\"%s\",\"%s\",%zu,%.9f,%s\n", kind->name, kind->sides[i].name, operations * kind->each,
               times[i][ROUNDS / 2], kind->unit);
    }
    fflush(stdout);
}

int main(int argc, char **argv)
{
    char *end;
    size_t count = argc == 2 ? strtoul(argv[1], &end, 10) : 0;
    if (argc != 2 || *end != '\0' || count == 0) {
        fprintf(stderr, "usage: bench COUNT\n");
        return 2;
    }
    make_inputs();
    for (size_t i = 0; i < sizeof kinds / sizeof kinds[0]; i++)
        measure(&kinds[i], count);
    return 0;
}
