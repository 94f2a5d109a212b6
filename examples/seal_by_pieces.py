"""Seals two pages and opens them again. The first has associated data: it is sealed whole and by pieces, and not opened under other data. The
second is sealed by pieces, and its session suspended in the middle and resumed; what is printed is what the program `seal` prints for it.
They are vectors 6 and 5 of the SNOW-V paper's SNOW-V-GCM vectors. Takes the path of the shared library as its argument."""

import ctypes
import sys

KEY = bytes(range(0x50, 0x60)) + bytes(range(0x0A, 0x100, 0x10))
# A vector's IV. In use no two pages under one key have the same.
IV = bytes.fromhex("0123456789abcdeffedcba9876543210")

SESSION_BYTES, SUSPENDED_BYTES, TAG_BYTES, IV_BYTES = 240, 512, 16, 16
BAD_TAG = 5


class Refused(Exception):
    """A call answered a number of the table in include/tulvekas.h."""

    def __init__(self, call, number):
        super().__init__(f"{call}: refused {number}")
        self.number = number


class Tulvekas:
    """The calls of include/tulvekas.h. A slice is a pointer and a length: bytes where it is only read, a bytearray where it is written."""

    def __init__(self, path):
        self.library = ctypes.CDLL(path)

    def __getattr__(self, name):
        function = getattr(self.library, "tulvekas_" + name)
        function.restype = ctypes.c_uint64

        def call(*slices):
            arguments = []
            for s in slices:
                pointer = (ctypes.c_ubyte * len(s)).from_buffer(s) if isinstance(s, bytearray) else ctypes.c_char_p(s)
                arguments += [pointer, ctypes.c_size_t(len(s))]
            number = function(*arguments)
            if number != 0:
                raise Refused(name, number)

        return call


def not_opened(tulvekas, data, cipher, tag):
    """Requires that opening is refused and that not a byte is written."""
    untouched = bytearray(b"\xee" * len(cipher))
    try:
        tulvekas.open(KEY, IV, data, cipher, tag, untouched)
        sys.exit("a page was opened under other data or another tag")
    except Refused as refusal:
        assert refusal.number == BAD_TAG and untouched == b"\xee" * len(cipher)


def with_associated_data(tulvekas):
    """A page with associated data."""
    data, text = b"AAD test value!", b"0123456789abcdef SnowV-AEAD mode!"
    cipher, tag, opened = bytearray(len(text)), bytearray(TAG_BYTES), bytearray(len(text))
    tulvekas.seal(KEY, IV, data, text, cipher, tag)
    assert tag.hex() == "907ea6a5b73a51de747c3e9ad9ee029b"
    tulvekas.open(KEY, IV, data, bytes(cipher), bytes(tag), opened)
    assert opened == text
    not_opened(tulvekas, b"AAD test value?", bytes(cipher), bytes(tag))

    # By pieces: the data first, then the text, each in as many pieces as one likes.
    session, pieces, again, given_iv = bytearray(SESSION_BYTES), bytearray(len(text)), bytearray(TAG_BYTES), bytearray(IV_BYTES)
    tulvekas.begin(KEY, IV, session)
    tulvekas.data(session, data[:3])
    tulvekas.data(session, data[3:])
    tulvekas.text(session, text, pieces)
    tulvekas.finish(session, again, given_iv)
    assert pieces == cipher and again == tag and given_iv == IV


def suspended_and_resumed(tulvekas):
    """A page without associated data, suspended between two pieces of its text."""
    text = b"0123456789"
    session, first = bytearray(SESSION_BYTES), bytearray(4)
    tulvekas.begin(KEY, IV, session)
    tulvekas.text(session, text[:4], first)

    # The block may be written to a file, and the session be forgotten.
    block = bytearray(SUSPENDED_BYTES)
    tulvekas.suspend(session, block)
    again, found = bytearray(SESSION_BYTES), bytearray(IV_BYTES)
    tulvekas.resume(KEY, block, again, found)
    assert again == session and found == IV

    second, tag, given_iv = bytearray(len(text) - 4), bytearray(TAG_BYTES), bytearray(IV_BYTES)
    tulvekas.text(again, text[4:], second)
    tulvekas.finish(again, tag, given_iv)
    cipher = bytes(first + second)
    assert given_iv == IV

    opened = bytearray(len(text))
    tulvekas.open(KEY, IV, b"", cipher, tag, opened)
    assert opened == text
    not_opened(tulvekas, b"", cipher, bytes([tag[0] ^ 1]) + bytes(tag[1:]))

    print("cipher=" + cipher.hex())
    print("auth=" + tag.hex())


def main():
    tulvekas = Tulvekas(sys.argv[1])
    with_associated_data(tulvekas)
    suspended_and_resumed(tulvekas)


if __name__ == "__main__":
    main()
