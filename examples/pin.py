#!/usr/bin/env python3
"""PIN blocks and terminals' first keys through build/libchizuregwo.so (make shared), by ctypes alone.

PIN (1234 if not given) and CARD, a card number (4219876543210987), are digits. Writes the clear and the encrypted PIN block, the PIN read back, and
three keys of a terminal beside the host's, at single and at double length.
"""
import ctypes
import pathlib
import sys

CZG_DONE, CZG_RECORD_SIZE, CZG_DOUBLE_RECORD_SIZE, CZG_MOST_MEANING = 0, 187, 355, 78
USAGE = "usage: examples/pin.py [PIN [CARD]]   (make shared first)"
LIBRARY = pathlib.Path(__file__).resolve().parent.parent / "build" / "libchizuregwo.so"

if sys.argv[1:] in (["-h"], ["--help"]):
    print(USAGE, __doc__.strip(), sep="\n")
    sys.exit(0)
if len(sys.argv) > 3:
    print(USAGE, file=sys.stderr)
    sys.exit(2)
try:
    library = ctypes.CDLL(str(LIBRARY))
except OSError:
    print(USAGE, "pin.py: build/libchizuregwo.so is missing, or it cannot be loaded: run make shared", sep="\n", file=sys.stderr)
    sys.exit(1)


class Answer(ctypes.Structure):
    """czg_answer, which every entry called here answers."""

    _fields_ = [("number", ctypes.c_uint32), ("length", ctypes.c_size_t)]


def refuse(entry, number):
    """Ends with a refusal's number and its meaning."""
    meaning = call("czg_meaning", ctypes.c_uint32(number), room=CZG_MOST_MEANING)
    sys.exit(f"{entry}: refused {number}: {meaning.decode()}")


def call(entry, *inputs, room):
    """Calls an entry on some bytes and numbers; gives the bytes that it wrote, or ends with the refusal."""
    arguments = []
    for given in inputs:
        if isinstance(given, bytes):
            arguments += [ctypes.c_char_p(given), ctypes.c_size_t(len(given))]
        else:
            arguments.append(given)
    out = ctypes.create_string_buffer(room)
    function = getattr(library, entry)
    function.restype = Answer
    answer = function(*arguments, out, ctypes.c_size_t(room))
    if answer.number != CZG_DONE:
        refuse(entry, answer.number)
    return out.raw[: answer.length]


def next_key(entry, record, key_size):
    """The terminal's next key and its serial number; the record is changed in place."""
    key, serial = ctypes.create_string_buffer(key_size), ctypes.create_string_buffer(10)
    function = getattr(library, entry)
    function.restype = Answer
    sizes = [ctypes.c_size_t(len(buffer)) for buffer in (record, key, serial)]
    answer = function(record, sizes[0], key, sizes[1], serial, sizes[2])
    if answer.number != CZG_DONE:
        refuse(entry, answer.number)
    return key.raw, serial.raw


def terminal(names, key_size, record_size, derivation_key, serial_number):
    """Loads a terminal with the host's initial key and compares its first keys with the host's. The entries' names start with NAMES."""
    initial_key = call(names + "initial_key", derivation_key, serial_number, room=key_size)
    loaded = call(names + "terminal_load", initial_key, serial_number, room=record_size)
    record = ctypes.create_string_buffer(loaded, record_size)
    for _ in range(3):
        given, serial = next_key(names + "terminal_next_key", record, key_size)
        host = call(names + "host_key", derivation_key, serial, room=key_size)
        print("terminal key    ", given.hex().upper(), "serial number", serial.hex().upper(), "host", host.hex().upper())
        if given != host:
            sys.exit("the host has another key")


pin = sys.argv[1] if len(sys.argv) > 1 else "1234"
card = sys.argv[2] if len(sys.argv) > 2 else "4219876543210987"
pin, card = pin.encode(), card.encode()
key = call("czg_key_entry", b"0123456789abcdefFEDCBA9876543210", ctypes.c_size_t(16), room=16)
print("clear block     ", call("czg_pin_make_with_card", pin, card, room=8).hex().upper())
block = call("czg_pin_encrypt_with_card", key, pin, card, room=8)
print("encrypted block ", block.hex().upper())
print("PIN             ", call("czg_pin_decrypt_with_card", key, block, card, room=12).decode())

terminal("czg_", 8, CZG_RECORD_SIZE, bytes.fromhex("51525457585B5D5E61626467686B6D6E"), bytes.fromhex("0123456789ABCDE00000"))
terminal("czg_double_", 16, CZG_DOUBLE_RECORD_SIZE, bytes.fromhex("0123456789ABCDEFFEDCBA9876543210"), bytes.fromhex("FFFF9876543210E00000"))
