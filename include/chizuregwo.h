/*
 * chizuregwo.h: the cryptography of rented card terminals.
 *
 * DES and two-key triple DES, key entry, the MAC of a text and of an online message, the blocks of PINs, passwords and VIP
 * numbers, chip-card keys and cryptograms, and DUKPT on the host and in the terminal. C99 and C++. Link with
 * libchizuregwo.a.
 *
 * Every entry but czg_version has one shape: what it reads (bytes lent as a pointer and a size; a number in six
 * entries), what it writes (bytes lent as a pointer and a size), and an answer by value. A key that is used comes first.
 * No entry keeps a pointer, allocates, or holds any state between calls, so entries may be called from several threads at
 * once.
 *
 * Done:    number is CZG_DONE and length says how many bytes were written, from the start of the buffer. The buffer's
 *          bytes after these are left as they were.
 * Refused: number is one of 1 to 13, every other member of the answer is 0, and NO BUFFER IS WRITTEN: every byte is left
 *          as it was.
 *
 * Where several refusals apply, the number given is the first in the order that stands with the entry. CZG_SHORT_BUFFER
 * (13) is always the last.
 *
 * The caller sees to it that no pointer is null, even where its size is 0; that the bytes are there for the whole size;
 * and that a buffer which is written overlaps no other buffer of the same call.
 *
 * The low bit of each key byte has no effect on the cipher. It is set in a card key alone, where each byte gets an odd
 * number of ones, and checked in no key.
 */
#ifndef CHIZUREGWO_H
#define CHIZUREGWO_H

#include <stddef.h>
#include <stdint.h>

#ifdef __cplusplus
extern "C" {
#endif

/* The version of this header, 0.1.0: 10,000 times the major number plus 100 times the minor plus the patch. */
#define CZG_VERSION 100

/* The numbers an operator sees, each with its meaning, as czg_meaning writes it. */
#define CZG_DONE 0          /* done */
#define CZG_CUT_SHORT 1     /* message empty, or a record is cut short */
#define CZG_FIELD_ORDER 2   /* first field is not 0, a field number is above 192, or not above the one before */
#define CZG_MESSAGE_TYPE 3  /* message type does not start with 01, 02, 04 or 05 */
#define CZG_FIELD_FORM 4    /* a listed field has the wrong length or characters */
#define CZG_EMPTY_TEXT 5    /* MAC asked over a text that is empty after cleaning */
#define CZG_SIZE 6          /* a length or size is outside its range */
#define CZG_CHARACTER 7     /* a character is not a digit, hexadecimal or a password's, where one is asked */
#define CZG_BAD_BLOCK 8     /* a block comes from no permitted PIN, password or VIP number */
#define CZG_EQUAL_HALVES 9  /* the two halves of a derivation key agree without the low bit of each byte */
#define CZG_BAD_COUNTER 10  /* host counter is 0 or has more than ten one bits */
#define CZG_BAD_RECORD 11   /* terminal state does not hang together */
#define CZG_EXHAUSTED 12    /* terminal exhausted */
#define CZG_SHORT_BUFFER 13 /* lent buffer shorter than the result */

/* Another name for 8, from when PIN blocks alone were read. */
#define CZG_NO_SUCH_PIN CZG_BAD_BLOCK

/* Sizes in bytes, and ranges. */
#define CZG_BLOCK_SIZE 8            /* a block, a MAC, a cryptogram, a PIN block */
#define CZG_PASSWORD_BLOCK_SIZE 24  /* a password block */
#define CZG_VIP_BLOCK_SIZE 16       /* a VIP block */
#define CZG_KEY_SIZE 8              /* a single-length key */
#define CZG_DOUBLE_KEY_SIZE 16      /* a double-length key, left half first */
#define CZG_SERIAL_NUMBER_SIZE 10   /* a serial number; its last 21 bits are the counter */
#define CZG_RECORD_SIZE 187         /* a terminal's record */
#define CZG_DOUBLE_RECORD_SIZE 355  /* a double-length terminal's record */
#define CZG_MOST_TEXT 1024          /* free text */
#define CZG_MOST_MESSAGE 4096       /* a message */
#define CZG_MOST_MESSAGE_TEXT 166   /* a message's MAC text */
#define CZG_LEAST_PIN 4             /* digits of a PIN */
#define CZG_MOST_PIN 12
#define CZG_LEAST_PASSWORD 6        /* characters of a password */
#define CZG_MOST_PASSWORD 20
#define CZG_LEAST_VIP_NUMBER 11     /* digits of a VIP number */
#define CZG_MOST_VIP_NUMBER 19
#define CZG_LEAST_CARD_NUMBER 13    /* digits of a card number */
#define CZG_MOST_CARD_NUMBER 19
#define CZG_MOST_CARD_SEQUENCE 99   /* card sequence number, from 0 */
#define CZG_MOST_CRYPTOGRAM_DATA 255 /* bytes under an ARQC, from 1 */
#define CZG_TERMINAL_KEYS 1048575   /* keys that a terminal gives from loading to exhaustion */
#define CZG_MOST_MEANING 78         /* the meaning of a number */

/*
 * A terminal's record, 187 bytes at single length and 355 at double length. The parts are the same; a register has 8 bytes,
 * or 16, left half first.
 *
 *   single length  double length
 *   place  size    place  size
 *   0      168     0      336     registers 0 to 20; register b belongs to the counter bit worth 2 to the power b
 *   168    4       336    4       the filled mask, big-endian: bit b is 1 if register b is filled
 *   172    10      340    10      the serial number with its counter bits zero
 *   182    4       350    4       the counter to be given out next, big-endian; 0 if exhausted
 *   186    1       354    1       1 if the terminal is exhausted, otherwise 0
 *
 * It holds keys: whoever keeps it keeps it secret. An older record handed in again gives old keys again.
 */
#define CZG_RECORD_REGISTERS 0
#define CZG_RECORD_FILLED 168
#define CZG_RECORD_SERIAL_NUMBER 172
#define CZG_RECORD_COUNTER 182
#define CZG_RECORD_EXHAUSTED 186

#define CZG_DOUBLE_RECORD_REGISTERS 0
#define CZG_DOUBLE_RECORD_FILLED 336
#define CZG_DOUBLE_RECORD_SERIAL_NUMBER 340
#define CZG_DOUBLE_RECORD_COUNTER 350
#define CZG_DOUBLE_RECORD_EXHAUSTED 354

/* What every entry answers but czg_version and those that clean a text. */
typedef struct czg_answer {
    uint32_t number; /* CZG_DONE or the refusal's number */
    size_t length;   /* bytes written; 0 on a refusal */
} czg_answer;

/*
 * What czg_clean, czg_message_text, czg_text_mac and czg_message_mac answer, which clean a text. Both counts are over the
 * text before cleaning; a message's is the joined one, with the length digits and the spaces between fields. That text has
 * as many bytes as the cleaned one, plus dropped, plus spaces.
 */
typedef struct czg_text_answer {
    uint32_t number; /* CZG_DONE or the refusal's number */
    size_t length;   /* bytes written; 0 on a refusal */
    size_t dropped;  /* bytes that are no letter of either case, digit, space, comma or full stop; 0 on a refusal */
    size_t spaces;   /* spaces, less those of the cleaned text; 0 on a refusal */
} czg_text_answer;

/* ---- The library itself ---- */

/* The version of the library that is linked, made as CZG_VERSION is: where they differ, header and library do not belong together. */
uint32_t czg_version(void);

/*
 * The meaning of a number from 0 to 13 as ASCII text, without an end mark: that of CZG_DONE is "done". Writes at most 78
 * bytes.
 * Refusals: 6 (number), 13.
 */
czg_answer czg_meaning(uint32_t number, uint8_t *out, size_t out_size);

/* ---- The cipher ---- */

/*
 * Encrypts a block of 8 bytes: DES (FIPS 46-3) under a key of 8 bytes; triple DES under one of 16, which encrypts with
 * the left half, decrypts with the right and encrypts with the left. Writes 8 bytes.
 * Refusals: 6 (key, block), 13.
 */
czg_answer czg_encrypt(const uint8_t *key, size_t key_size, const uint8_t *block, size_t block_size,
                       uint8_t *out, size_t out_size);

/* Decrypts: undoes czg_encrypt under the same key. Writes 8 bytes. Refusals: 6 (key, block), 13. */
czg_answer czg_decrypt(const uint8_t *key, size_t key_size, const uint8_t *block, size_t block_size,
                       uint8_t *out, size_t out_size);

/* ---- Key entry ---- */

/*
 * A key from hexadecimal text, letters of either case. bytes_wanted counts bytes and is 8 or 16; the text has exactly
 * twice as many digits. Writes bytes_wanted bytes.
 * Refusals: 6 (bytes wanted, text), 7, 13.
 */
czg_answer czg_key_entry(const uint8_t *text, size_t text_size, size_t bytes_wanted, uint8_t *out, size_t out_size);

/* ---- Texts, messages and their MACs. Each answer says what cleaning threw away. ---- */

/*
 * Cleans a text of 0 to 1,024 bytes: small letters become capitals; only A to Z, 0 to 9, space, comma and full stop stay;
 * after that, spaces at both ends go and each run of spaces becomes one. Writes the cleaned text, which may be empty.
 * Refusals: 6, 13.
 */
czg_text_answer czg_clean(const uint8_t *text, size_t text_size, uint8_t *out, size_t out_size);

/*
 * The MAC text of an online message of 1 to 4,096 bytes. A message is records: body length in two bytes, field number in
 * two bytes, both little-endian, then the body. Present listed fields are joined in rising order with one space between
 * (2, 32 and 33 with two digits of length before them, 90 by its first 20 digits), and the whole is cleaned. Writes at
 * most 166 bytes.
 * Refusals: 6, 1 (an empty message too), 2, 4, 3 (of one record 1, 2, 4, 3 before any of the next), 13.
 */
czg_text_answer czg_message_text(const uint8_t *message, size_t message_size, uint8_t *out, size_t out_size);

/*
 * The MAC of a free text of 0 to 1,024 bytes under a key of 8 bytes: the text is cleaned and filled with zero bytes to a
 * multiple of 8; CBC-MAC from zero, all 8 bytes (ISO/IEC 9797-1, algorithm 1). Writes 8 bytes.
 * Refusals: 6 (key, text), 5, 13.
 */
czg_text_answer czg_text_mac(const uint8_t *key, size_t key_size, const uint8_t *text, size_t text_size,
                             uint8_t *out, size_t out_size);

/*
 * The MAC of a message under a key of 8 bytes: of its MAC text, as above. Writes 8 bytes.
 * Refusals: 6 (key, message), 1 (an empty message too), 2, 4, 3 (of one record 1, 2, 4, 3 before any of the next), 13.
 */
czg_text_answer czg_message_mac(const uint8_t *key, size_t key_size, const uint8_t *message, size_t message_size,
                                uint8_t *out, size_t out_size);

/* ---- PIN blocks. A PIN is 4 to 12 text digits, a card number 13 to 19; a card number's last digit has no effect on a block. ---- */

/* Clear PIN block without card number: half-bytes 0, length, the digits, then F. Writes 8 bytes. Refusals: 6, 7, 13. */
czg_answer czg_pin_make(const uint8_t *pin, size_t pin_size, uint8_t *out, size_t out_size);

/*
 * Clear PIN block with card number: that block, exclusive-or 0000 and the twelve rightmost digits leaving out the last
 * (ISO 9564-1, format 0). Writes 8 bytes.
 * Refusals: 6 (PIN, card number), 7 (PIN, card number), 13.
 */
czg_answer czg_pin_make_with_card(const uint8_t *pin, size_t pin_size, const uint8_t *card, size_t card_size,
                                  uint8_t *out, size_t out_size);

/* The PIN of a clear block of 8 bytes, as text digits: the PIN that makes the block. Refusals: 6, 8, 13. */
czg_answer czg_pin_read(const uint8_t *block, size_t block_size, uint8_t *out, size_t out_size);

/* The same with card number. Refusals: 6 (block, card number), 7, 8, 13. */
czg_answer czg_pin_read_with_card(const uint8_t *block, size_t block_size, const uint8_t *card, size_t card_size,
                                  uint8_t *out, size_t out_size);

/*
 * Encrypted PIN block without card number: the clear block under DES with a key of 8 bytes, under triple DES with one of
 * 16. Writes 8 bytes.
 * Refusals: 6 (key, PIN), 7, 13.
 */
czg_answer czg_pin_encrypt(const uint8_t *key, size_t key_size, const uint8_t *pin, size_t pin_size,
                           uint8_t *out, size_t out_size);

/* The same with card number. Writes 8 bytes. Refusals: 6 (key, PIN, card number), 7 (PIN, card number), 13. */
czg_answer czg_pin_encrypt_with_card(const uint8_t *key, size_t key_size, const uint8_t *pin, size_t pin_size,
                                     const uint8_t *card, size_t card_size, uint8_t *out, size_t out_size);

/*
 * The PIN of an encrypted block of 8 bytes, as text digits: decrypted under a key of 8 or 16 bytes and then read as a
 * clear block.
 * Refusals: 6 (key, block), 8, 13.
 */
czg_answer czg_pin_decrypt(const uint8_t *key, size_t key_size, const uint8_t *block, size_t block_size,
                           uint8_t *out, size_t out_size);

/* The same with card number. Refusals: 6 (key, block, card number), 7, 8, 13. */
czg_answer czg_pin_decrypt_with_card(const uint8_t *key, size_t key_size, const uint8_t *block, size_t block_size,
                                     const uint8_t *card, size_t card_size, uint8_t *out, size_t out_size);

/* ---- Password and VIP blocks. A password is 6 to 20 characters from 21 to 7E hex, a VIP number 11 to 19 text digits. ---- */

/*
 * Clear password block: two decimal characters of length, the password, then FF hex to the end. Writes 24 bytes.
 * Refusals: 6, 7, 13.
 */
czg_answer czg_password_make(const uint8_t *password, size_t password_size, uint8_t *out, size_t out_size);

/* The password of a clear block of 24 bytes: the password that makes the block. Refusals: 6, 8, 13. */
czg_answer czg_password_read(const uint8_t *block, size_t block_size, uint8_t *out, size_t out_size);

/*
 * Clear VIP block: two decimal half-bytes of length, the digits as half-bytes, then F to the end. Writes 16 bytes.
 * Refusals: 6, 7, 13.
 */
czg_answer czg_vip_make(const uint8_t *digits, size_t digits_size, uint8_t *out, size_t out_size);

/* The VIP number of a clear block of 16 bytes, as text digits: the number that makes the block. Refusals: 6, 8, 13. */
czg_answer czg_vip_read(const uint8_t *block, size_t block_size, uint8_t *out, size_t out_size);

/* ---- The card's keys and cryptograms ---- */

/*
 * Y: the card number and two digits of sequence (0 to 99), its rightmost 16 digits, zeros put on the left if short, two
 * digits a byte. Writes 8 bytes.
 * Refusals: 6 (card number, sequence), 7, 13.
 */
czg_answer czg_derivation_data(const uint8_t *card, size_t card_size, uint32_t sequence, uint8_t *out, size_t out_size);

/*
 * The card key: under a master key of 16 bytes, triple DES of Y, then of Y with all bits turned; and then the low bit of
 * each byte is turned that has an even number of ones, so that every byte has an odd number. Writes 16 bytes.
 * Refusals: 6 (master key, card number, sequence), 7, 13.
 */
czg_answer czg_card_key(const uint8_t *master_key, size_t master_key_size, const uint8_t *card, size_t card_size,
                        uint32_t sequence, uint8_t *out, size_t out_size);

/*
 * The card key before its parity is set, for comparison with lists of such keys. It has the same session keys, and so the
 * same cryptograms. Writes 16 bytes.
 * Refusals: 6 (master key, card number, sequence), 7, 13.
 */
czg_answer czg_card_key_unadjusted(const uint8_t *master_key, size_t master_key_size,
                                   const uint8_t *card, size_t card_size, uint32_t sequence,
                                   uint8_t *out, size_t out_size);

/*
 * The session key: under a card key of 16 bytes, triple DES of six zero bytes and the transaction counter, then of the
 * same with the counter's bits turned. The low bits of the card key's bytes have no effect, and no parity is set on the
 * session key. Writes 16 bytes.
 * Refusals: 6, 13.
 */
czg_answer czg_session_key(const uint8_t *card_key, size_t card_key_size, uint16_t counter,
                           uint8_t *out, size_t out_size);

/*
 * ARQC: 1 to 255 bytes of data, with 80 hex and then zeros to a multiple of 8, under algorithm 3 of ISO/IEC 9797-1 with a
 * session key of 16 bytes. Writes 8 bytes.
 * Refusals: 6 (session key, data), 13.
 */
czg_answer czg_arqc(const uint8_t *session_key, size_t session_key_size, const uint8_t *data, size_t data_size,
                    uint8_t *out, size_t out_size);

/*
 * ARPC: an ARQC of 8 bytes, exclusive-or the 2 code bytes and six zeros, triple DES under a session key of 16 bytes.
 * Writes 8 bytes.
 * Refusals: 6 (session key, ARQC, code), 13.
 */
czg_answer czg_arpc(const uint8_t *session_key, size_t session_key_size, const uint8_t *arqc, size_t arqc_size,
                    const uint8_t *code, size_t code_size, uint8_t *out, size_t out_size);

/* ---- Terminal keys (DUKPT, single length) ---- */

/*
 * The initial key: under a derivation key of 16 bytes, triple DES of the serial number's first 8 bytes with the low five
 * bits cleared. A serial number has 10 bytes; its counter has no effect. Writes 8 bytes. The halves of the derivation key
 * are compared without the low bit of each byte, here and for the host's key: where they agree, triple DES would be DES.
 * Refusals: 6 (derivation key, serial number), 9, 13.
 */
czg_answer czg_initial_key(const uint8_t *derivation_key, size_t derivation_key_size,
                           const uint8_t *serial_number, size_t serial_number_size, uint8_t *out, size_t out_size);

/*
 * The host's key for a serial number of 10 bytes with its counter: the register key of that counter with FF hex
 * exclusive-or'd into its last byte. Writes 8 bytes.
 * Refusals: 6 (derivation key, serial number), 9, 10, 13.
 */
czg_answer czg_host_key(const uint8_t *derivation_key, size_t derivation_key_size,
                        const uint8_t *serial_number, size_t serial_number_size, uint8_t *out, size_t out_size);

/*
 * Loads a terminal: from an initial key of 8 bytes and a serial number of 10, whose counter bits are cleared, makes the
 * record with counter 1 next. Writes 187 bytes.
 * Refusals: 6 (initial key, serial number), 13.
 */
czg_answer czg_terminal_load(const uint8_t *initial_key, size_t initial_key_size,
                             const uint8_t *serial_number, size_t serial_number_size, uint8_t *out, size_t out_size);

/*
 * The terminal's next key. The record has exactly 187 bytes and is changed in place; the key buffer gets 8 bytes and the
 * serial buffer 10: the serial number with the counter of that key in it. For that serial number czg_host_key gives the
 * same key, if the terminal was loaded with the initial key that czg_initial_key gives under the same derivation key. A
 * terminal gives 1,048,575 keys and is then exhausted. On done, length is 8. On a refusal the record, the key buffer and
 * the serial buffer are left as they were.
 * Refusals: 6 (record), 11, 12, 13 (key buffer shorter than 8, serial buffer shorter than 10).
 */
czg_answer czg_terminal_next_key(uint8_t *record, size_t record_size, uint8_t *key, size_t key_size,
                                 uint8_t *serial_number, size_t serial_number_size);

/* ---- Terminal keys (DUKPT, double length). Keys have 16 bytes, left half first; all else is as at single length. ---- */

/*
 * The initial key: the left half is czg_initial_key's, the right half the same under the masked derivation key, with
 * C0C0C0C000000000 hex exclusive-or'd into both its halves (ANS X9.24-1). Writes 16 bytes. The halves are compared before
 * that, here and for the host's key.
 * Refusals: 6 (derivation key, serial number), 9, 13.
 */
czg_answer czg_double_initial_key(const uint8_t *derivation_key, size_t derivation_key_size,
                                  const uint8_t *serial_number, size_t serial_number_size,
                                  uint8_t *out, size_t out_size);

/*
 * The host's key for a serial number of 10 bytes with its counter: the register key of that counter with FF hex
 * exclusive-or'd into the last byte of each half. A one-way step makes the new right half from the key, and the new left
 * half from the key masked in the same way, each so: the data, exclusive-or the right half, encrypted under the left half,
 * exclusive-or the right half again. Writes 16 bytes.
 * Refusals: 6 (derivation key, serial number), 9, 10, 13.
 */
czg_answer czg_double_host_key(const uint8_t *derivation_key, size_t derivation_key_size,
                               const uint8_t *serial_number, size_t serial_number_size, uint8_t *out, size_t out_size);

/*
 * Loads a terminal: from an initial key of 16 bytes, whose halves are not compared, and a serial number of 10, makes the
 * record as czg_terminal_load does. Writes 355 bytes.
 * Refusals: 6 (initial key, serial number), 13.
 */
czg_answer czg_double_terminal_load(const uint8_t *initial_key, size_t initial_key_size,
                                    const uint8_t *serial_number, size_t serial_number_size,
                                    uint8_t *out, size_t out_size);

/*
 * The terminal's next key, as czg_terminal_next_key gives it: the record has exactly 355 bytes and the key buffer gets 16;
 * czg_double_host_key gives the same key, if the terminal was loaded with the initial key of czg_double_initial_key. On
 * done, length is 16.
 * Refusals: 6 (record), 11, 12, 13 (key buffer shorter than 16, serial buffer shorter than 10).
 */
czg_answer czg_double_terminal_next_key(uint8_t *record, size_t record_size, uint8_t *key, size_t key_size,
                                        uint8_t *serial_number, size_t serial_number_size);

#ifdef __cplusplus
}
#endif

#endif /* CHIZUREGWO_H */
