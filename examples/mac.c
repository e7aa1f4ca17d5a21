/*
 * mac [FILE]: the MAC text and the MAC of one message, what cleaning threw away of the text, and a PIN block. FILE holds
 * eight bytes of MAC key and then the message; without it they come from standard input. Ends with status 1 after a
 * refusal.
 *
 *   cc -I build -o mac examples/mac.c build/libchizuregwo.a
 */
#include <stdio.h>
#include <string.h>

#include "chizuregwo.h"

/* Whether the number of an answer is done; if not, prints what was refused and why. */
static int done(const char *what, uint32_t number)
{
    uint8_t meaning[CZG_MOST_MEANING];
    if (number == CZG_DONE)
        return 1;
    czg_answer written = czg_meaning(number, meaning, sizeof meaning);
    printf("%s: refused %u: %.*s\n", what, (unsigned)number, (int)written.length, (const char *)meaning);
    return 0;
}

/* Prints bytes as capital hexadecimal digits. */
static void print_hex(const char *what, const uint8_t *bytes, size_t size)
{
    printf("%s ", what);
    for (size_t i = 0; i < size; i++)
        printf("%02X", bytes[i]);
    printf("\n");
}

int main(int argc, char **argv)
{
    static const uint8_t pin[] = "1234", card[] = "4219876543210987", pin_key[] = "a key for PINs !";
    /* One byte more than a key and the longest message, so that a longer message is seen as one. */
    static uint8_t input[CZG_KEY_SIZE + CZG_MOST_MESSAGE + 1];
    uint8_t text[CZG_MOST_MESSAGE_TEXT], mac[CZG_BLOCK_SIZE], block[CZG_BLOCK_SIZE];

    FILE *file = argc > 1 ? fopen(argv[1], "rb") : stdin;
    if (file == NULL) {
        perror(argv[1]);
        return 2;
    }
    size_t size = fread(input, 1, sizeof input, file);
    size_t key_size = size < CZG_KEY_SIZE ? size : CZG_KEY_SIZE;
    const uint8_t *message = input + key_size;
    size_t message_size = size - key_size;

    /* The MAC first: it refuses a short key, and all that the text refuses. */
    czg_text_answer cleaned = czg_message_mac(input, key_size, message, message_size, mac, sizeof mac);
    if (!done("mac", cleaned.number))
        return 1;
    cleaned = czg_message_text(message, message_size, text, sizeof text);
    if (!done("text", cleaned.number))
        return 1;
    printf("text %.*s\n", (int)cleaned.length, (const char *)text);
    print_hex("mac", mac, sizeof mac);
    printf("dropped %zu spaces %zu\n", cleaned.dropped, cleaned.spaces);

    czg_answer answer = czg_pin_encrypt_with_card(pin_key, CZG_DOUBLE_KEY_SIZE, pin, strlen((const char *)pin),
                                                  card, strlen((const char *)card), block, sizeof block);
    if (!done("pin block", answer.number))
        return 1;
    print_hex("pin block", block, answer.length);
    return 0;
}
