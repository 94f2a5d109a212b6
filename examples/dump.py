"""What support does with a crash dump: of a session's suspended block bytes 16 to 127 are left, the registers, and the count of blocks is lost with
the text length that it follows from. The owner knows that a page has at most 474 bytes of text, so that the session has drawn 2 to 32 blocks. A
search of these counts finds the count, the IV and the mode; with its count the dump is a state, which is traced, and run back for the keystream
that reads the ciphertext. Then what is refused: a range without that count, another key, and a range whose ends are exchanged. Takes the path of the
shared library as its argument."""

import ctypes
import sys

# In use a key is 32 random bytes that nobody else has.
KEY = bytes(range(0x50, 0x60)) + bytes(range(0x0A, 0x100, 0x10))
IV = bytes.fromhex("0123456789abcdeffedcba9876543210")
TEXT = b"Mari Saar; pitch 12; two nights; tax 4.00"

STATE_BYTES, SESSION_BYTES, SUSPENDED_BYTES, IV_BYTES, BLOCK_BYTES = 120, 240, 512, 16, 16
COUNT_BYTES, STEPS_BYTES, DUMP_AT, DUMP_BYTES, MOST_PAGE_TEXT = 8, 8, 16, 112, 474
# A session has drawn 2 blocks when it begins, and one for each 16 bytes of text that it has begun.
LOWEST, HIGHEST = 2, 2 + (MOST_PAGE_TEXT + 15) // 16


class Refused(Exception):
    """A call answered a number of the table in include/tulvekas.h."""

    def __init__(self, number):
        super().__init__(f"refused {number}")


class Tulvekas:
    """The calls of include/tulvekas.h. A slice is a pointer and a length: bytes where it is only read, a bytearray where it is written. A number is
    64 bits."""

    def __init__(self, path):
        self.library = ctypes.CDLL(path)

    def __getattr__(self, name):
        function = getattr(self.library, "tulvekas_" + name)
        function.restype = ctypes.c_uint64

        def call(*given):
            arguments = []
            for g in given:
                if isinstance(g, int):
                    arguments.append(ctypes.c_uint64(g))
                else:
                    pointer = (ctypes.c_ubyte * len(g)).from_buffer(g) if isinstance(g, bytearray) else ctypes.c_char_p(g)
                    arguments += [pointer, ctypes.c_size_t(len(g))]
            number = function(*arguments)
            if number != 0:
                raise Refused(number)

        return call


def print_refusal(what, call, *given):
    """Makes a call that must be refused and prints the number."""
    try:
        call(*given)
        sys.exit(f"{what}: accepted")
    except Refused as refusal:
        print(f"{what}: {refusal}")


def print_number(name, number):
    """A number of 8 bytes, low byte first."""
    print(f"{name}:", int.from_bytes(number, "little"))


def print_origin(found, sealed):
    print("IV:", found.hex())
    print("mode:", "sealed" if sealed[0] else "plain")


def crash(tulvekas):
    """What is left: the registers and the ciphertext."""
    session, cipher, block = bytearray(SESSION_BYTES), bytearray(len(TEXT)), bytearray(SUSPENDED_BYTES)
    tulvekas.begin(KEY, IV, session)
    tulvekas.text(session, TEXT, cipher)
    tulvekas.suspend(session, block)
    return bytes(block[DUMP_AT:DUMP_AT + DUMP_BYTES]), bytes(cipher)


def read_text(cipher, stream, drawn):
    """Text under the keystream of a run back, whose blocks come last one first; the first block of text is the third of them all."""
    blocks = [stream[BLOCK_BYTES * i:BLOCK_BYTES * (i + 1)] for i in range(drawn)]
    keystream = b"".join(reversed(blocks))[2 * BLOCK_BYTES:]
    return bytes(c ^ k for c, k in zip(cipher, keystream))


def recover(tulvekas, dump, cipher):
    count, found, sealed, steps = bytearray(COUNT_BYTES), bytearray(IV_BYTES), bytearray(1), bytearray(STEPS_BYTES)
    tulvekas.search(dump, KEY, LOWEST, HIGHEST, count, found, sealed, steps)
    print_number("count", count)
    print_origin(found, sealed)
    print_number("steps", steps)

    # The registers with their count behind them are a state.
    state, drawn = bytearray(dump + count), int.from_bytes(count, "little")
    if drawn < LOWEST + (len(cipher) + BLOCK_BYTES - 1) // BLOCK_BYTES:
        sys.exit("a lesser count leads there too: too few blocks for the ciphertext that is left")
    tulvekas.trace(state, KEY, found, sealed)
    print("traced:")
    print_origin(found, sealed)
    stream = bytearray(drawn * BLOCK_BYTES)
    tulvekas.run(state, drawn, 1, stream)
    print("text:", read_text(cipher, stream, drawn).decode())
    print_number("count", state[DUMP_BYTES:])


def in_vain(tulvekas, what, dump, key, lowest, highest):
    """A search that finds nothing says how far it walked."""
    count, found, sealed, steps = bytearray(COUNT_BYTES), bytearray(IV_BYTES), bytearray(1), bytearray(STEPS_BYTES)
    print_refusal(what, tulvekas.search, dump, key, lowest, highest, count, found, sealed, steps)
    print_number("steps", steps)


def refusals(tulvekas, dump):
    other, none = bytes([KEY[0] ^ 1]) + KEY[1:], bytearray()
    in_vain(tulvekas, "counts from 6 on", dump, KEY, 6, HIGHEST)
    in_vain(tulvekas, "under another key", dump, other, LOWEST, HIGHEST)
    print_refusal("from the highest to the lowest", tulvekas.search, dump, KEY, HIGHEST, LOWEST, none, none, none, none)


def main():
    tulvekas = Tulvekas(sys.argv[1])
    dump, cipher = crash(tulvekas)
    recover(tulvekas, dump, cipher)
    refusals(tulvekas, dump)


if __name__ == "__main__":
    main()
