"""Keeps the keys of a season's stays in a file: stores two, fetches one from the file and seals a page under it, and erases it; then shows what is
refused: a number that is not there, another season's key, an erased key, a number that was used, and any key once a block is damaged. Takes the
path of the shared library as its argument."""

import ctypes
import sys
import tempfile

# The season's key. In use a key is 32 random bytes that nobody else has.
KEY = bytes(range(0x50, 0x60)) + bytes(range(0x0A, 0x100, 0x10))
# Stay numbers.
IV, OTHER, ABSENT = b"2026 stay no. 42", b"2026 stay no. 43", b"2026 stay no. 44"

KEY_BYTES, TAG_BYTES, KEYS_BLOCK_BYTES = 32, 16, 512
# A season has as many stays at most as its store has blocks.
BLOCKS = 3


class Refused(Exception):
    """A call answered a number of the table in include/tulvekas.h."""

    def __init__(self, number):
        super().__init__(f"refused {number}")


class Tulvekas:
    """The calls of include/tulvekas.h. A slice is a pointer and a length: bytes where it is only read, a bytearray where it is written."""

    def __init__(self, path):
        self.library = ctypes.CDLL(path)

    def __getattr__(self, name):
        function = getattr(self.library, "tulvekas_" + name)
        function.restype = ctypes.c_uint64

        def call(*given):
            arguments = []
            for g in given:
                pointer = (ctypes.c_ubyte * len(g)).from_buffer(g) if isinstance(g, bytearray) else ctypes.c_char_p(g)
                arguments += [pointer, ctypes.c_size_t(len(g))]
            number = function(*arguments)
            if number != 0:
                raise Refused(number)

        return call


def print_refusal(what, call, *given):
    """Makes a call that must be refused and prints the number."""
    try:
        call(*given)
        sys.exit(f"{what}: accepted")
    except Refused as refusal:
        print(f"{what}: {refusal}")


def made_key(first):
    """A key for a stay, which would be random as well."""
    return bytes(range(first, first + KEY_BYTES))


class KeyStore:
    """A key store in a file, all zero at first."""

    def __init__(self, tulvekas, file):
        self.tulvekas, self.file = tulvekas, file
        self.data = bytearray(KEYS_BLOCK_BYTES * BLOCKS)

    def write(self):
        self.file.seek(0)
        self.file.write(self.data)

    def read(self):
        self.file.seek(0)
        self.data = bytearray(self.file.read())

    def store(self, iv, stay_key):
        self.tulvekas.keys_store(KEY, iv, stay_key, self.data)

    def fetch(self, key, iv):
        fetched = bytearray(KEY_BYTES)
        self.tulvekas.keys_fetch(key, iv, bytes(self.data), fetched)
        return bytes(fetched)

    def erase(self, iv):
        self.tulvekas.keys_erase(iv, self.data)

    def print_blocks(self):
        """Mark and number of a block can be read without the key."""
        for place in range(BLOCKS):
            block = self.data[KEYS_BLOCK_BYTES * place : KEYS_BLOCK_BYTES * (place + 1)]
            number = f", {block[16:32].decode()}" if block[0] != 0 else ""
            print(f"block {place}: {('empty', 'held', 'erased')[block[0]]}{number}")
        print("tag of block 0:", self.data[64:80].hex())

    def print_fetch(self, key, iv):
        """Fetches a stay's key and says whether it is there."""
        try:
            self.fetch(key, iv)
            said = "its key is there"
        except Refused as refusal:
            said = refusal
        print(f"{iv.decode()}: {said}")


def seal_page(tulvekas, stay_key):
    """Pages of a stay are sealed under its own key. Under that key they may be numbered from 1."""
    page, text = (1).to_bytes(16, "little"), b"Mari Saar"
    cipher, tag = bytearray(len(text)), bytearray(TAG_BYTES)
    tulvekas.seal(stay_key, page, b"", text, cipher, tag)
    print("page:", cipher.hex())
    print("its tag:", tag.hex())


def main():
    tulvekas = Tulvekas(sys.argv[1])
    with tempfile.TemporaryFile() as file:
        keys = KeyStore(tulvekas, file)
        keys.store(IV, made_key(42))
        keys.store(OTHER, made_key(143))
        keys.write()
        keys.read()
        keys.print_blocks()
        keys.print_fetch(KEY, IV)
        keys.print_fetch(KEY, OTHER)
        fetched = keys.fetch(KEY, IV)
        assert fetched == made_key(42)
        seal_page(tulvekas, fetched)

        print("a number that is not there:")
        keys.print_fetch(KEY, ABSENT)

        print("under another season's key:")
        keys.print_fetch(bytes([KEY[0] ^ 1]) + KEY[1:], IV)

        print("erased:")
        keys.erase(IV)
        keys.write()
        keys.read()
        keys.print_blocks()
        keys.print_fetch(KEY, IV)
        keys.print_fetch(KEY, OTHER)

        print("erased or stored again:")
        print_refusal("erase", keys.erase, IV)
        print_refusal("store", keys.store, IV, made_key(44))

        print("a bit of block 2 changed:")
        keys.data[2 * KEYS_BLOCK_BYTES + 100] ^= 1
        keys.print_fetch(KEY, OTHER)


if __name__ == "__main__":
    main()
