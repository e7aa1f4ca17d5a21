/* Calls every entry through the header, as C declares it, on a published or marked case, and makes each kind of refusal. */
#include <stdio.h>
#include <string.h>

#include "chizuregwo.h"

static int cases, failures;
static uint8_t out[256];

/* The bytes that hexadecimal digits write; four results can be in use at once. */
static const uint8_t *hex(const char *digits)
{
    static uint8_t results[4][64];
    static int next;
    uint8_t *bytes = results[next++ % 4];
    for (size_t i = 0; i < strlen(digits) / 2; i++) {
        unsigned byte;
        sscanf(digits + 2 * i, "%2x", &byte);
        bytes[i] = (uint8_t)byte;
    }
    return bytes;
}

static const uint8_t *text(const char *characters) { return (const uint8_t *)characters; }

/* An answer must be done with these bytes, and the byte after them as it was; then the buffer is filled again. */
static void same(const char *what, czg_answer answer, size_t size, const uint8_t *bytes)
{
    cases++;
    if (answer.number != CZG_DONE || answer.length != size || memcmp(out, bytes, size) != 0 || out[size] != 0xA5) {
        printf("header: FAILED: %s: number %u, length %zu\n", what, (unsigned)answer.number, answer.length);
        failures++;
    }
    memset(out, 0xA5, sizeof out);
}

/* An answer must be this refusal, and the buffer as it was. */
static void refused(const char *what, czg_answer answer, uint32_t number)
{
    cases++;
    int changed = 0;
    for (size_t i = 0; i < sizeof out; i++)
        changed |= out[i] != 0xA5;
    if (answer.number != number || answer.length != 0 || changed) {
        printf("header: FAILED: %s: number %u where %u was to be\n", what, (unsigned)answer.number, (unsigned)number);
        failures++;
    }
    memset(out, 0xA5, sizeof out);
}

/* Both counts of an answer must be these. */
static void counted(const char *what, czg_text_answer answer, size_t dropped, size_t spaces)
{
    if (answer.dropped != dropped || answer.spaces != spaces) {
        printf("header: FAILED: %s: dropped %zu, spaces %zu where %zu and %zu were to be\n", what, answer.dropped, answer.spaces,
               dropped, spaces);
        failures++;
    }
}

/* The answer of an entry that cleans a text must be done with these bytes and these counts. */
static void same_text(const char *what, czg_text_answer answer, size_t size, const uint8_t *bytes, size_t dropped, size_t spaces)
{
    same(what, (czg_answer){answer.number, answer.length}, size, bytes);
    counted(what, answer, dropped, spaces);
}

/* The answer of an entry that cleans a text must be this refusal, with both counts 0. */
static void refused_text(const char *what, czg_text_answer answer, uint32_t number)
{
    refused(what, (czg_answer){answer.number, answer.length}, number);
    counted(what, answer, 0, 0);
}

/* An answer must be done with this length. */
static void done(const char *what, czg_answer answer, size_t length)
{
    cases++;
    if (answer.number != CZG_DONE || answer.length != length) {
        printf("header: FAILED: %s: number %u, length %zu\n", what, (unsigned)answer.number, answer.length);
        failures++;
    }
}

/* Bytes must be these. */
static void holds(const char *what, const uint8_t *bytes, size_t size, const uint8_t *wanted)
{
    cases++;
    if (memcmp(bytes, wanted, size) != 0) {
        printf("header: FAILED: %s: other bytes than were to be\n", what);
        failures++;
    }
}

/* An entry that makes bytes from a key and a serial number. */
typedef czg_answer derivation(const uint8_t *, size_t, const uint8_t *, size_t, uint8_t *, size_t);

/* The terminals of one length: their entries, the sizes and places that the header has for them, and an example. */
typedef struct device {
    const char *name;
    derivation *initial_key, *host_key, *load;
    czg_answer (*next_key)(uint8_t *, size_t, uint8_t *, size_t, uint8_t *, size_t);
    size_t key_size, record_size, registers, filled, serial_number, counter, exhausted;
    const char *derivation_key, *serial;                /* the serial number has counter 0 */
    const char *initial, *first_register, *first_key;   /* the register key and the key given out of counter 1 */
} device;

static const device devices[] = {
    {"", czg_initial_key, czg_host_key, czg_terminal_load, czg_terminal_next_key,
     CZG_KEY_SIZE, CZG_RECORD_SIZE, CZG_RECORD_REGISTERS, CZG_RECORD_FILLED, CZG_RECORD_SERIAL_NUMBER, CZG_RECORD_COUNTER,
     CZG_RECORD_EXHAUSTED, "51525457585B5D5E61626467686B6D6E", "0123456789ABCDE00000",
     "21EE7C08DBE820AB", "474823EFCD882249", "474823EFCD8822B6"},
    /* ANS X9.24-1:2004, A.4 */
    {"double_", czg_double_initial_key, czg_double_host_key, czg_double_terminal_load, czg_double_terminal_next_key,
     CZG_DOUBLE_KEY_SIZE, CZG_DOUBLE_RECORD_SIZE, CZG_DOUBLE_RECORD_REGISTERS, CZG_DOUBLE_RECORD_FILLED,
     CZG_DOUBLE_RECORD_SERIAL_NUMBER, CZG_DOUBLE_RECORD_COUNTER, CZG_DOUBLE_RECORD_EXHAUSTED,
     "0123456789ABCDEFFEDCBA9876543210", "FFFF9876543210E00000",
     "6AC292FAA1315B4D858AB3A3D7D5933A", "042666B49184CFA368DE9628D0397BC9", "042666B49184CF5C68DE9628D0397B36"},
};

/* What is called, after the device's name. */
static const char *of(const device *d, const char *what)
{
    static char label[64];
    snprintf(label, sizeof label, "%s%s", d->name, what);
    return label;
}

/* The host's derivations: the example, then each refusal. */
static void host_keys(const device *d)
{
    size_t size = d->key_size, room = sizeof out;
    uint8_t key[CZG_DOUBLE_KEY_SIZE], serial[CZG_SERIAL_NUMBER_SIZE];
    memcpy(key, hex(d->derivation_key), sizeof key);
    memcpy(serial, hex(d->serial), sizeof serial);
    same(of(d, "initial_key"), d->initial_key(key, 16, serial, 10, out, room), size, hex(d->initial));
    refused(of(d, "host_key, counter 0"), d->host_key(key, 16, serial, 10, out, room), CZG_BAD_COUNTER);
    serial[8] = 0x07;
    serial[9] = 0xFF;
    same(of(d, "initial_key, eleven ones"), d->initial_key(key, 16, serial, 10, out, room), size, hex(d->initial));
    refused(of(d, "host_key, eleven ones"), d->host_key(key, 16, serial, 10, out, room), CZG_BAD_COUNTER);
    serial[8] = 0;
    serial[9] = 1;
    same(of(d, "host_key"), d->host_key(key, 16, serial, 10, out, room), size, hex(d->first_key));
    derivation *const entries[] = {d->initial_key, d->host_key};
    for (int i = 0; i < 2; i++) {
        const char *what = of(d, i == 0 ? "initial_key, refused" : "host_key, refused");
        refused(what, entries[i](key, 15, serial, 10, out, room), CZG_SIZE);
        refused(what, entries[i](key, 16, serial, 9, out, room), CZG_SIZE);
        refused(what, entries[i](hex("51525457585B5D5E51525457585B5D5E"), 16, serial, 10, out, room), CZG_EQUAL_HALVES);
        refused(what, entries[i](hex("51525457585B5D5E50535556595A5C5F"), 16, serial, 10, out, room), CZG_EQUAL_HALVES);
        refused(what, entries[i](key, 16, serial, 10, out, size - 1), CZG_SHORT_BUFFER);
    }
}

/* A terminal: the parts of its record where the header says, its first key, and each refusal, which changes nothing. */
static void terminal_keys(const device *d)
{
    size_t size = d->key_size, record_size = d->record_size;
    uint8_t record[CZG_DOUBLE_RECORD_SIZE + 1], before[sizeof record], number[CZG_SERIAL_NUMBER_SIZE + 1], serial[CZG_SERIAL_NUMBER_SIZE];
    memset(record, 0xA5, sizeof record);
    memset(number, 0xA5, sizeof number);
    memcpy(before, record, sizeof record);
    memcpy(serial, hex(d->serial), sizeof serial);
    serial[9] = 1;
    refused(of(d, "terminal_load, key"), d->load(hex(d->initial), size - 1, serial, 10, record, sizeof record), CZG_SIZE);
    refused(of(d, "terminal_load, serial number"), d->load(hex(d->initial), size, serial, 9, record, sizeof record), CZG_SIZE);
    refused(of(d, "terminal_load, no room"), d->load(hex(d->initial), size, serial, 10, record, record_size - 1), CZG_SHORT_BUFFER);
    holds(of(d, "terminal_load, refused"), record, sizeof record, before);

    done(of(d, "terminal_load"), d->load(hex(d->initial), size, serial, 10, record, sizeof record), record_size);
    holds(of(d, "terminal_load, after the record"), record + record_size, 1, hex("A5"));
    holds(of(d, "terminal_load, register 0"), record + d->registers, size, hex(d->first_register));
    holds(of(d, "terminal_load, filled mask"), record + d->filled, 4, hex("001FFFFF"));
    holds(of(d, "terminal_load, serial number"), record + d->serial_number, 10, hex(d->serial));
    holds(of(d, "terminal_load, counter"), record + d->counter, 4, hex("00000001"));
    holds(of(d, "terminal_load, exhausted"), record + d->exhausted, 1, hex("00"));

    memcpy(before, record, sizeof record);
    refused(of(d, "next_key, record"), d->next_key(record, record_size - 1, out, size, number, 10), CZG_SIZE);
    refused(of(d, "next_key, no room"), d->next_key(record, record_size, out, size - 1, number, 10), CZG_SHORT_BUFFER);
    refused(of(d, "next_key, no room for the number"), d->next_key(record, record_size, out, size, number, 9), CZG_SHORT_BUFFER);
    holds(of(d, "next_key, refused: record"), record, sizeof record, before);
    holds(of(d, "next_key, refused: serial number"), number, sizeof number, hex("A5A5A5A5A5A5A5A5A5A5A5"));
    same(of(d, "next_key"), d->next_key(record, record_size, out, sizeof out, number, sizeof number), size, hex(d->first_key));
    holds(of(d, "next_key, serial number"), number, 10, serial);
    holds(of(d, "next_key, after the number"), number + 10, 1, hex("A5"));
    holds(of(d, "next_key, counter"), record + d->counter, 4, hex("00000002"));
    holds(of(d, "next_key, filled mask"), record + d->filled, 4, hex("001FFFFE"));

    memset(record, 0, sizeof record);
    refused(of(d, "next_key, zeros"), d->next_key(record, record_size, out, size, number, 10), CZG_BAD_RECORD);
    record[d->exhausted] = 1;
    refused(of(d, "next_key, exhausted"), d->next_key(record, record_size, out, size, number, 10), CZG_EXHAUSTED);
}

/* PIN blocks under the double-length keys of counters 1 to 7 (ANS X9.24-1:2004, A.4). */
static void published_pin_blocks(const device *d)
{
    static const char *const blocks[] = {"1B9C1845EB993A7A", "10A01C8D02C69107", "18DC07B94797B466", "0BC79509D5645DF7",
                                         "5BC0AF22AD87B327", "A16DF70AE36158D8", "27711C16CB257F8E"};
    uint8_t record[CZG_DOUBLE_RECORD_SIZE], key[CZG_DOUBLE_KEY_SIZE], number[CZG_SERIAL_NUMBER_SIZE];
    d->load(hex(d->initial), sizeof key, hex(d->serial), 10, record, sizeof record);
    for (size_t i = 0; i < sizeof blocks / sizeof blocks[0]; i++) {
        d->next_key(record, sizeof record, key, sizeof key, number, sizeof number);
        same("published PIN block", czg_pin_encrypt_with_card(key, sizeof key, text("1234"), 4, text("4012345678909"), 13, out, sizeof out),
             8, hex(blocks[i]));
    }
}

int main(void)
{
    static const char card_digits[] = "4219876543210987", message[] = "\x04\0\0\0" "0200";
    /* Two bytes and three spaces of its field 41 go out. */
    static const char changed[] = "\x04\0\0\0" "0200" "\x08\0\x29\0" "a - b - ";
    static const uint8_t long_text[CZG_MOST_TEXT + 1];
    const uint8_t *card = text(card_digits);
    size_t room = sizeof out;
    memset(out, 0xA5, room);

    cases++;
    if (czg_version() != CZG_VERSION) {
        printf("header: FAILED: version: %u where the header has %u\n", (unsigned)czg_version(), (unsigned)CZG_VERSION);
        failures++;
    }
    same("meaning", czg_meaning(CZG_EXHAUSTED, out, room), 18, text("terminal exhausted"));
    refused("meaning, no room", czg_meaning(CZG_EXHAUSTED, out, 17), CZG_SHORT_BUFFER);
    refused("meaning, 14", czg_meaning(14, out, room), CZG_SIZE);
    same("encrypt", czg_encrypt(hex("133457799BBCDFF1"), 8, hex("0123456789ABCDEF"), 8, out, room), 8, hex("85E813540F0AB405"));
    same("decrypt", czg_decrypt(hex("133457799BBCDFF1"), 8, hex("85E813540F0AB405"), 8, out, room), 8, hex("0123456789ABCDEF"));
    refused("encrypt", czg_encrypt(hex("133457799BBCDFF1"), 7, hex("0123456789ABCDEF"), 8, out, room), CZG_SIZE);
    same("key_entry", czg_key_entry(text("0123456789abcDEF"), 16, 8, out, room), 8, hex("0123456789ABCDEF"));
    refused("key_entry", czg_key_entry(text("0123456789abcDEG"), 16, 8, out, room), CZG_CHARACTER);
    same_text("clean", czg_clean(text("a - b"), 5, out, room), 3, text("A B"), 1, 1);
    same_text("clean, spaces", czg_clean(text("     "), 5, out, room), 0, out, 0, 5);
    refused_text("clean, size", czg_clean(long_text, sizeof long_text, out, room), CZG_SIZE);
    refused_text("clean, no room", czg_clean(text("a - b"), 5, out, 2), CZG_SHORT_BUFFER);
    same_text("message_text", czg_message_text(text(message), 8, out, room), 4, text("0200"), 0, 0);
    same_text("message_text, changed", czg_message_text(text(changed), 20, out, room), 8, text("0200 A B"), 2, 3);
    refused_text("message_text, no room", czg_message_text(text(changed), 20, out, 7), CZG_SHORT_BUFFER);
    refused_text("message_text, empty", czg_message_text(text(message), 0, out, room), CZG_CUT_SHORT);
    refused_text("message_text, field 1", czg_message_text(text("\0\0\1\0"), 4, out, room), CZG_FIELD_ORDER);
    refused_text("message_text, type", czg_message_text(text("\4\0\0\0" "0300"), 8, out, room), CZG_MESSAGE_TYPE);
    refused_text("message_text, form", czg_message_text(text("\4\0\0\0" "02x0"), 8, out, room), CZG_FIELD_FORM);
    same_text("text_mac", czg_text_mac(hex("0123456789ABCDEF"), 8, text(" -x- "), 5, out, room), 8, hex("C49CF44D534EFBC0"), 2, 2);
    refused_text("text_mac, empty", czg_text_mac(hex("0123456789ABCDEF"), 8, text("---"), 3, out, room), CZG_EMPTY_TEXT);
    refused_text("text_mac, no room", czg_text_mac(hex("0123456789ABCDEF"), 8, text(" -x- "), 5, out, 7), CZG_SHORT_BUFFER);
    same_text("message_mac", czg_message_mac(hex("0123456789ABCDEF"), 8, text(message), 8, out, room), 8, hex("DB81035675C65160"), 0, 0);
    same_text("message_mac, changed", czg_message_mac(hex("0123456789ABCDEF"), 8, text(changed), 20, out, room),
              8, hex("A544B5E0D9DE3B60"), 2, 3);
    refused_text("message_mac, key", czg_message_mac(hex("0123456789ABCDEF"), 7, text(changed), 20, out, room), CZG_SIZE);
    refused_text("message_mac, no room", czg_message_mac(hex("0123456789ABCDEF"), 8, text(changed), 20, out, 7), CZG_SHORT_BUFFER);

    same("pin_make", czg_pin_make(text("1234"), 4, out, room), 8, hex("041234FFFFFFFFFF"));
    refused("pin_make, no room", czg_pin_make(text("1234"), 4, out, 7), CZG_SHORT_BUFFER);
    same("pin_make_with_card", czg_pin_make_with_card(text("1234"), 4, card, 16, out, room), 8, hex("0412AC89ABCDEF67"));
    same("pin_read", czg_pin_read(hex("041234FFFFFFFFFF"), 8, out, room), 4, text("1234"));
    refused("pin_read", czg_pin_read(hex("03123FFFFFFFFFFF"), 8, out, room), CZG_NO_SUCH_PIN);
    same("pin_read_with_card", czg_pin_read_with_card(hex("0412AC89ABCDEF67"), 8, card, 16, out, room), 4, text("1234"));
    same("pin_encrypt", czg_pin_encrypt(hex("0123456789ABCDEF"), 8, text("1234"), 4, out, room), 8, hex("286344C32894AFB6"));
    same("pin_encrypt_with_card", czg_pin_encrypt_with_card(hex("0123456789ABCDEF"), 8, text("1234"), 4, card, 16, out, room),
         8, hex("864C0D7C2D6C8B94"));
    same("pin_decrypt", czg_pin_decrypt(hex("0123456789ABCDEF"), 8, hex("286344C32894AFB6"), 8, out, room), 4, text("1234"));
    same("pin_decrypt_with_card", czg_pin_decrypt_with_card(hex("0123456789ABCDEF"), 8, hex("864C0D7C2D6C8B94"), 8, card, 16, out, room),
         4, text("1234"));

    /* Source document 003 prints 25 bytes of the password's block, one FF too many. */
    const char *password_block = "303948656C6C6F21313233FFFFFFFFFFFFFFFFFFFFFFFFFFFF", *vip_block = "191234567890123456789FFFFFFFFFFF";
    same("password_make", czg_password_make(text("Hello!123"), 9, out, room), CZG_PASSWORD_BLOCK_SIZE, hex(password_block));
    refused("password_make, size", czg_password_make(text("Hello"), CZG_LEAST_PASSWORD - 1, out, room), CZG_SIZE);
    refused("password_make, space", czg_password_make(text("Hello 123"), 9, out, room), CZG_CHARACTER);
    refused("password_make, no room", czg_password_make(text("Hello!123"), 9, out, CZG_PASSWORD_BLOCK_SIZE - 1), CZG_SHORT_BUFFER);
    same("password_read", czg_password_read(hex(password_block), CZG_PASSWORD_BLOCK_SIZE, out, CZG_MOST_PASSWORD), 9, text("Hello!123"));
    refused("password_read, printed", czg_password_read(hex(password_block), 25, out, room), CZG_SIZE);
    refused("password_read", czg_password_read(hex("303848656C6C6F21313233FFFFFFFFFFFFFFFFFFFFFFFFFF"), 24, out, room), CZG_BAD_BLOCK);
    refused("password_read, no room", czg_password_read(hex(password_block), 24, out, 8), CZG_SHORT_BUFFER);
    same("vip_make", czg_vip_make(text("1234567890123456789"), CZG_MOST_VIP_NUMBER, out, room), CZG_VIP_BLOCK_SIZE, hex(vip_block));
    refused("vip_make, size", czg_vip_make(text("1234567890"), CZG_LEAST_VIP_NUMBER - 1, out, room), CZG_SIZE);
    refused("vip_make, letter", czg_vip_make(text("1234567890A"), 11, out, room), CZG_CHARACTER);
    refused("vip_make, no room", czg_vip_make(text("12345678901"), 11, out, CZG_VIP_BLOCK_SIZE - 1), CZG_SHORT_BUFFER);
    same("vip_read", czg_vip_read(hex(vip_block), CZG_VIP_BLOCK_SIZE, out, CZG_MOST_VIP_NUMBER + 1), 19, text("1234567890123456789"));
    refused("vip_read, size", czg_vip_read(hex(vip_block), 15, out, room), CZG_SIZE);
    refused("vip_read, hexadecimal", czg_vip_read(hex("131234567890123456789FFFFFFFFFFF"), 16, out, room), CZG_BAD_BLOCK);
    refused("vip_read, no room", czg_vip_read(hex(vip_block), 16, out, 18), CZG_SHORT_BUFFER);

    same("derivation_data", czg_derivation_data(text("6228000100001"), 13, 1, out, room), 8, hex("0622800010000101"));
    same("card_key", czg_card_key(hex("0123456789ABCDEFFEDCBA9876543210"), 16, text("4219876543210987"), 16, 0, out, room),
         16, hex("9249345E0220CEBA0D20D6A2453BF407"));
    same("card_key_unadjusted", czg_card_key_unadjusted(hex("F0C34A8124CEE0A91A0B034AA97D6EAC"), 16, text("6228000100001"), 13, 1, out, room),
         16, hex("014D996FCC8F49157DC8B49E3BCDFD99"));
    same("session_key", czg_session_key(hex("014D996FCC8F49157DC8B49E3BCDFD99"), 16, 0x0240, out, room),
         16, hex("D4102725E6E5AD329E55AAB50BF23DA9"));
    same("arqc", czg_arqc(hex("E57C032E6FE8AA94D0D72FF8E4D4DFBC"), 16,
                          hex("0000000010000000000000000710000000000007101302050030901B6A3C00005503A4A082"), 37, out, room),
         8, hex("6BC76F457CC4FB24"));
    same("arpc", czg_arpc(hex("D4102725E6E5AD329E55AAB50BF23DA9"), 16, hex("5D016C91005E7CC2"), 8, text("01"), 2, out, room),
         8, hex("21415243527CE78F"));

    same("host_key, counter 100001", czg_host_key(hex("51525457585B5D5E61626467686B6D6E"), 16, hex("0123456789ABCDF00001"), 10, out, room),
         8, hex("670B395E6CFB60C2"));
    refused("initial_key, low bit", czg_initial_key(hex("51525457585B5D5E51525457585B5D5F"), 16, hex("0123456789ABCDF00001"), 10, out, room),
            CZG_EQUAL_HALVES);
    for (size_t i = 0; i < sizeof devices / sizeof devices[0]; i++) {
        host_keys(&devices[i]);
        terminal_keys(&devices[i]);
    }
    published_pin_blocks(&devices[1]);

    if (failures == 0)
        printf("header: %d calls are as they must be\n", cases);
    return failures != 0;
}
