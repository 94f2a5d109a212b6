"""Draws blocks of keystream and walks back over them; goes the way from a suspended block to the IV of its session, which takes the key and nothing
else, since a state has its count with it; and shows what is refused: a block before the start, another key, and a count that is too high. Takes the
path of the shared library as its argument."""

import ctypes
import sys

# In use a key is 32 random bytes that nobody else has.
KEY = bytes(range(0x50, 0x60)) + bytes(range(0x0A, 0x100, 0x10))
IV = bytes.fromhex("0123456789abcdeffedcba9876543210")

STATE_BYTES, SESSION_BYTES, SUSPENDED_BYTES, IV_BYTES, BLOCK_BYTES = 120, 240, 512, 16, 16
BLOCKS, COUNT_AT = 3, 112


class Refused(Exception):
    """A call answered a number of the table in include/tulvekas.h."""

    def __init__(self, number):
        super().__init__(f"refused {number}")


class Tulvekas:
    """The calls of include/tulvekas.h. A slice is a pointer and a length: bytes where it is only read, a bytearray where it is written. A number is
    64 bits."""

    def __init__(self, path):
        self.library = ctypes.CDLL(path)

    def __getattr__(self, name):
        function = getattr(self.library, "tulvekas_" + name)
        function.restype = ctypes.c_uint64

        def call(*given):
            arguments = []
            for g in given:
                if isinstance(g, int):
                    arguments.append(ctypes.c_uint64(g))
                else:
                    pointer = (ctypes.c_ubyte * len(g)).from_buffer(g) if isinstance(g, bytearray) else ctypes.c_char_p(g)
                    arguments += [pointer, ctypes.c_size_t(len(g))]
            number = function(*arguments)
            if number != 0:
                raise Refused(number)

        return call


def print_refusal(what, call, *given):
    """Makes a call that must be refused and prints the number."""
    try:
        call(*given)
        sys.exit(f"{what}: accepted")
    except Refused as refusal:
        print(f"{what}: {refusal}")


def print_count(state):
    """The count that a state has with it, low byte first."""
    print("count:", int.from_bytes(state[COUNT_AT:], "little"))


def forward_and_back(tulvekas):
    state, forward, back = bytearray(STATE_BYTES), bytearray(BLOCKS * BLOCK_BYTES), bytearray(BLOCKS * BLOCK_BYTES)
    tulvekas.start(KEY, IV, 0, state)
    first = bytes(state)
    tulvekas.run(state, BLOCKS, 0, forward)
    print("forward:", forward.hex())
    print_count(state)

    tulvekas.run(state, BLOCKS, 1, back)
    print("back:", back.hex())
    print_count(state)
    assert state == first
    print_refusal("a block before the start", tulvekas.run, state, 1, 1, back)


def suspended(tulvekas):
    """A session of 20 bytes of text, suspended."""
    session, cipher, block = bytearray(SESSION_BYTES), bytearray(20), bytearray(SUSPENDED_BYTES)
    tulvekas.begin(KEY, IV, session)
    tulvekas.text(session, bytes(20), cipher)
    tulvekas.suspend(session, block)
    return bytes(block)


def from_block_to_iv(tulvekas):
    state, found, sealed = bytearray(STATE_BYTES), bytearray(IV_BYTES), bytearray(1)
    tulvekas.state_of(suspended(tulvekas), state)
    print_count(state)
    tulvekas.trace(state, KEY, found, sealed)
    print("IV:", found.hex())
    print("mode:", "sealed" if sealed[0] else "plain")

    other = bytes([KEY[0] ^ 1]) + KEY[1:]
    print_refusal("under another key", tulvekas.trace, state, other, found, sealed)

    state[COUNT_AT:] = (65539).to_bytes(8, "little")
    print_count(state)
    print_refusal("trace", tulvekas.trace, state, KEY, found, sealed)
    print_refusal("no block back", tulvekas.run, state, 0, 1, bytearray())


def main():
    tulvekas = Tulvekas(sys.argv[1])
    forward_and_back(tulvekas)
    from_block_to_iv(tulvekas)


if __name__ == "__main__":
    main()
