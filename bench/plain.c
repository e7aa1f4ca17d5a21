/* The same work in plain C over OpenSSL's DES (the rules of papers 01 and 02). */
#define OPENSSL_SUPPRESS_DEPRECATED
#include "plain.h"

#include <openssl/des.h>
#include <string.h>

/* DES of a block under a key used once. */
static void des(const uint8_t key[8], const uint8_t in[8], uint8_t out[8])
{
    DES_key_schedule schedule;
    DES_set_key_unchecked((const_DES_cblock *)key, &schedule);
    DES_ecb_encrypt((const_DES_cblock *)in, (DES_cblock *)out, &schedule, DES_ENCRYPT);
}

/* Triple DES with two keys. */
static void triple(const uint8_t key[16], const uint8_t in[8], uint8_t out[8])
{
    DES_key_schedule left, right;
    DES_set_key_unchecked((const_DES_cblock *)key, &left);
    DES_set_key_unchecked((const_DES_cblock *)(key + 8), &right);
    DES_ecb2_encrypt((const_DES_cblock *)in, (DES_cblock *)out, &left, &right, DES_ENCRYPT);
}

/* ---- Terminal keys ---- */

/* A serial number's last 8 bytes with a counter in them. */
static void put_counter(uint8_t data[8], uint32_t counter)
{
    data[5] = (uint8_t)((data[5] & 0xE0) | (counter >> 16));
    data[6] = (uint8_t)(counter >> 8);
    data[7] = (uint8_t)counter;
}

/* A double-length key with C0C0C0C000000000 exclusive-or'd into both halves. */
static void masked(const uint8_t key[16], uint8_t out[16])
{
    for (int i = 0; i < 16; i++)
        out[i] = (uint8_t)(key[i] ^ (i % 8 < 4 ? 0xC0 : 0));
}

/* Data exclusive-or the right half, encrypted under the left half, exclusive-or the right half again. */
static void one_way(const uint8_t left[8], const uint8_t right[8], const uint8_t data[8], uint8_t out[8])
{
    uint8_t block[8];
    for (int i = 0; i < 8; i++)
        block[i] = data[i] ^ right[i];
    des(left, block, block);
    for (int i = 0; i < 8; i++)
        out[i] = block[i] ^ right[i];
}

/*
 * One-way step: the key of a counter from the key without its last one bit. A single-length key is both halves; of a
 * double-length one the new right half comes from the key, the new left half from the masked key.
 */
static void step(const uint8_t *key, size_t key_size, const uint8_t serial[10], uint32_t counter, uint8_t *out)
{
    uint8_t data[8];
    memcpy(data, serial + 2, 8);
    put_counter(data, counter);
    if (key_size == 8) {
        one_way(key, key, data, out);
        return;
    }
    uint8_t other[16];
    masked(key, other);
    one_way(key, key + 8, data, out + 8);
    one_way(other, other + 8, data, out);
}

/* The key given out for a register key: FF exclusive-or'd into the last byte of each half. */
static void give_out(const uint8_t *key, size_t key_size, uint8_t *out)
{
    for (size_t at = 0; at < key_size; at += 8) {
        memcpy(out + at, key + at, 8);
        out[at + 7] ^= 0xFF;
    }
}

/* Whether the halves of a key agree without the low bit of each byte. */
static int same_halves(const uint8_t key[16])
{
    for (int i = 0; i < 8; i++)
        if (key[i] >> 1 != key[i + 8] >> 1)
            return 0;
    return 1;
}

int plain_host_key(const uint8_t derivation[16], const uint8_t serial[10], size_t key_size, uint8_t *out)
{
    if (same_halves(derivation))
        return 9;
    uint32_t counter = (uint32_t)(serial[7] & 0x1F) << 16 | (uint32_t)serial[8] << 8 | serial[9];
    if (counter == 0 || __builtin_popcount(counter) > 10)
        return 10;
    uint8_t cleared[8], key[16];
    memcpy(cleared, serial, 8);
    cleared[7] &= 0xE0;
    triple(derivation, cleared, key);
    if (key_size == 16) {
        uint8_t other[16];
        masked(derivation, other);
        triple(other, cleared, key + 8);
    }
    uint32_t set = 0;
    for (uint32_t left = counter; left != 0;) {
        uint32_t bit = 1u << (31 - __builtin_clz(left));
        left ^= bit;
        set |= bit;
        step(key, key_size, serial, set, key);
    }
    give_out(key, key_size, out);
    return 0;
}

void plain_load(plain_terminal *terminal, const uint8_t *initial, size_t key_size, const uint8_t serial[10])
{
    memset(terminal, 0, sizeof *terminal);
    terminal->key_size = key_size;
    memcpy(terminal->serial, serial, 10);
    put_counter(terminal->serial + 2, 0);
    terminal->counter = 1;
    for (int b = 0; b < 21; b++)
        step(initial, key_size, terminal->serial, 1u << b, terminal->keys[b]);
}

int plain_next_key(plain_terminal *terminal, uint8_t *key, uint8_t serial[10])
{
    uint32_t counter = terminal->counter;
    if (counter == 0)
        return 12;
    int lowest = __builtin_ctz(counter);
    uint8_t used[16];
    memcpy(used, terminal->keys[lowest], 16);
    memset(terminal->keys[lowest], 0, 16);
    if (__builtin_popcount(counter) < 10) {
        for (int b = 0; b < lowest; b++)
            step(used, terminal->key_size, terminal->serial, counter | 1u << b, terminal->keys[b]);
        terminal->counter = counter + 1;
    } else {
        terminal->counter = counter + (1u << lowest);
    }
    if (terminal->counter >> 21)
        terminal->counter = 0;
    give_out(used, terminal->key_size, key);
    memcpy(serial, terminal->serial, 10);
    put_counter(serial + 2, counter);
    return 0;
}

/* ---- Texts and messages ---- */

/* The character that a byte is cleaned to, or 0 if it is dropped. */
static uint8_t kept(uint8_t byte)
{
    if (byte >= 'a' && byte <= 'z')
        return (uint8_t)(byte - 32);
    if ((byte >= 'A' && byte <= 'Z') || (byte >= '0' && byte <= '9') || byte == ' ' || byte == ',' || byte == '.')
        return byte;
    return 0;
}

int plain_clean(const uint8_t *text, size_t size, uint8_t *out, size_t *length)
{
    if (size > 1024)
        return 6;
    size_t n = 0;
    for (size_t i = 0; i < size; i++) {
        uint8_t byte = kept(text[i]);
        if (byte == 0 || (byte == ' ' && (n == 0 || out[n - 1] == ' ')))
            continue;
        out[n++] = byte;
    }
    *length = n - (n > 0 && out[n - 1] == ' ');
    return 0;
}

/* CBC-MAC from zero over bytes filled with zeros. */
static void chained(const uint8_t key[8], const uint8_t *bytes, size_t size, uint8_t out[8])
{
    DES_key_schedule schedule;
    DES_set_key_unchecked((const_DES_cblock *)key, &schedule);
    uint8_t value[8] = {0};
    for (size_t at = 0; at < size; at += 8) {
        size_t length = size - at < 8 ? size - at : 8;
        for (size_t i = 0; i < length; i++)
            value[i] ^= bytes[at + i];
        DES_ecb_encrypt((const_DES_cblock *)value, (DES_cblock *)value, &schedule, DES_ENCRYPT);
    }
    memcpy(out, value, 8);
}

int plain_text_mac(const uint8_t key[8], const uint8_t *text, size_t size, uint8_t out[8])
{
    uint8_t cleaned[1024];
    size_t length;
    int number = plain_clean(text, size, cleaned, &length);
    if (number != 0)
        return number;
    if (length == 0)
        return 5;
    chained(key, cleaned, length, out);
    return 0;
}

static int digits(const uint8_t *body, size_t size)
{
    for (size_t i = 0; i < size; i++)
        if (body[i] < '0' || body[i] > '9')
            return 0;
    return 1;
}

static int letters_or_digits(const uint8_t *body, size_t size)
{
    for (size_t i = 0; i < size; i++)
        if (kept(body[i]) < '0')
            return 0;
    return 1;
}

static int printable(const uint8_t *body, size_t size)
{
    for (size_t i = 0; i < size; i++)
        if (body[i] < 0x20 || body[i] > 0x7E)
            return 0;
    return 1;
}

/* Whether a field is listed: -1 if not, 1 if its body is right, 0 if not. */
static int listed(unsigned field, const uint8_t *body, size_t size)
{
    switch (field) {
    case 0: case 18: return size == 4 && digits(body, size);
    case 2: return size >= 13 && size <= 19 && digits(body, size);
    case 3: case 11: return size == 6 && digits(body, size);
    case 4: return size == 12 && digits(body, size);
    case 7: return size == 10 && digits(body, size);
    case 25: return size == 2 && digits(body, size);
    case 28: return size == 9 && (body[0] == 'C' || body[0] == 'D') && digits(body + 1, 8);
    case 32: case 33: return size >= 1 && size <= 11 && digits(body, size);
    case 38: return size == 6 && letters_or_digits(body, size);
    case 39: return size == 2 && letters_or_digits(body, size);
    case 41: return size == 8 && printable(body, size);
    case 42: return size == 15 && printable(body, size);
    case 90: return size == 42 && digits(body, size);
    default: return -1;
    }
}

int plain_message_mac(const uint8_t key[8], const uint8_t *message, size_t size, uint8_t out[8])
{
    uint8_t text[200], cleaned[200];
    size_t used = 0, length;
    unsigned before = 0;
    if (size > 4096)
        return 6;
    if (size == 0)
        return 1;
    for (size_t at = 0; at < size;) {
        if (size - at < 4)
            return 1;
        size_t body_size = message[at] | (size_t)message[at + 1] << 8;
        unsigned field = message[at + 2] | (unsigned)message[at + 3] << 8;
        const uint8_t *body = message + at + 4;
        if (size - at - 4 < body_size)
            return 1;
        if (at == 0 ? field != 0 : field <= before || field > 192)
            return 2;
        int form = listed(field, body, body_size);
        if (form == 0)
            return 4;
        if (field == 0 && (body[0] != '0' || (body[1] != '1' && body[1] != '2' && body[1] != '4' && body[1] != '5')))
            return 3;
        if (form == 1) {
            if (used > 0)
                text[used++] = ' ';
            if (field == 2 || field == 32 || field == 33) {
                text[used++] = (uint8_t)('0' + body_size / 10);
                text[used++] = (uint8_t)('0' + body_size % 10);
            }
            size_t taken = field == 90 ? 20 : body_size;
            memcpy(text + used, body, taken);
            used += taken;
        }
        before = field;
        at += 4 + body_size;
    }
    plain_clean(text, used, cleaned, &length);
    chained(key, cleaned, length, out);
    return 0;
}

/* ---- PIN blocks ---- */

int plain_pin_encrypt(const uint8_t *key, size_t key_size, const uint8_t *pin, size_t pin_size,
                      const uint8_t *card, size_t card_size, uint8_t out[8])
{
    if (pin_size < 4 || pin_size > 12 || card_size < 13 || card_size > 19 || (key_size != 8 && key_size != 16))
        return 6;
    if (!digits(pin, pin_size) || !digits(card, card_size))
        return 7;
    uint8_t block[8];
    memset(block, 0xFF, 8);
    block[0] = (uint8_t)pin_size;
    for (size_t i = 0; i < pin_size; i++) {
        uint8_t digit = (uint8_t)(pin[i] - '0');
        uint8_t *byte = &block[1 + i / 2];
        *byte = i % 2 == 0 ? (uint8_t)(digit << 4 | 0x0F) : (uint8_t)((*byte & 0xF0) | digit);
    }
    const uint8_t *twelve = card + card_size - 13;
    for (int i = 0; i < 6; i++)
        block[2 + i] ^= (uint8_t)((twelve[2 * i] - '0') << 4 | (twelve[2 * i + 1] - '0'));
    if (key_size == 8)
        des(key, block, out);
    else
        triple(key, block, out);
    return 0;
}
