/* The same work in plain C over OpenSSL's DES, to measure against. Written for speed and from the same rules. */
#ifndef PLAIN_H
#define PLAIN_H

#include <stddef.h>
#include <stdint.h>

/*
 * A terminal's state as a struct of the program's own: no byte form, no test that it hangs together. A single-length key
 * stands in the first 8 bytes of its register.
 */
typedef struct plain_terminal {
    uint8_t keys[21][16];
    size_t key_size;
    uint8_t serial[10];
    uint32_t counter;
} plain_terminal;

/*
 * Each gives 0, or the refusal's number; a length is written where a result's size varies. A terminal's keys have 8 or 16
 * bytes: key_size.
 */
int plain_host_key(const uint8_t derivation[16], const uint8_t serial[10], size_t key_size, uint8_t *out);
void plain_load(plain_terminal *terminal, const uint8_t *initial, size_t key_size, const uint8_t serial[10]);
int plain_next_key(plain_terminal *terminal, uint8_t *key, uint8_t serial[10]);
int plain_clean(const uint8_t *text, size_t size, uint8_t *out, size_t *length);
int plain_text_mac(const uint8_t key[8], const uint8_t *text, size_t size, uint8_t out[8]);
int plain_message_mac(const uint8_t key[8], const uint8_t *message, size_t size, uint8_t out[8]);
int plain_pin_encrypt(const uint8_t *key, size_t key_size, const uint8_t *pin, size_t pin_size,
                      const uint8_t *card, size_t card_size, uint8_t out[8]);

#endif
