"""A changeover Saturday: stays join a scheduler, each with a key of its own, and are sealed in turns of at most 4,096 bytes, one of them joining while
others are served. Whoever has finished leaves with its tag, and ciphertext and tag are those of the whole page. Then what is refused: a stay
number that is there, a text of no bytes, a piece that is not the one due, a short output, a thirty-third stay, and bytes that are no scheduler. Takes
the path of the shared library as its argument."""

import ctypes
import sys

KEY_BYTES, IV_BYTES, TAG_BYTES = 32, 16, 16
SCHEDULE_BYTES, TURN_BYTES, DUE_BYTES, MOST_STAYS, MOST_PIECE = 8208, 8, 8, 32, 4096


class Refused(Exception):
    """A call answered a number of the table in include/tulvekas.h."""

    def __init__(self, number):
        super().__init__(f"refused {number}")


class Tulvekas:
    """The calls of include/tulvekas.h. A slice is a pointer and a length: bytes where it is only read, a bytearray where it is written. A number is
    64 bits."""

    def __init__(self, path):
        self.library = ctypes.CDLL(path)

    def __getattr__(self, name):
        function = getattr(self.library, "tulvekas_" + name)
        function.restype = ctypes.c_uint64

        def call(*given):
            arguments = []
            for g in given:
                if isinstance(g, int):
                    arguments.append(ctypes.c_uint64(g))
                else:
                    pointer = (ctypes.c_ubyte * len(g)).from_buffer(g) if isinstance(g, bytearray) else ctypes.c_char_p(g)
                    arguments += [pointer, ctypes.c_size_t(len(g))]
            number = function(*arguments)
            if number != 0:
                raise Refused(number)

        return call


def print_refusal(what, call, *given):
    """Makes a call that must be refused and prints the number."""
    try:
        call(*given)
        sys.exit(f"{what}: accepted")
    except Refused as refusal:
        print(f"{what}: {refusal}")


def number(data):
    """A number of 8 bytes, low byte first."""
    return int.from_bytes(data, "little")


class Stay:
    """What reception knows of a stay: its text is in memory here, and might as well be read from a file, piece by piece."""

    def __init__(self, no, length):
        self.iv = f"2026 stay no. {no:02}".encode()
        # In use a key is 32 random bytes that nobody else has.
        self.key = bytes(range(no, no + KEY_BYTES))
        self.text = bytes(ord("a") + (no + i) % 26 for i in range(length))
        self.cipher = b""


class Scheduler:
    """A scheduler, and who is there. Whoever reads its bytes can decrypt the pages of all of them."""

    def __init__(self, tulvekas):
        self.tulvekas, self.stays = tulvekas, {}
        self.data = bytearray(SCHEDULE_BYTES)
        tulvekas.schedule_empty(self.data)

    def join(self, stay):
        self.tulvekas.schedule_join(self.data, stay.key, stay.iv, len(stay.text))
        self.stays[stay.iv] = stay

    def next(self):
        """The stay that comes next and the length of its piece; None and 0 where nobody is there."""
        found, iv, due = bytearray(1), bytearray(IV_BYTES), bytearray(DUE_BYTES)
        self.tulvekas.schedule_next(bytes(self.data), found, iv, due)
        return (self.stays[bytes(iv)], number(due)) if found[0] == 1 else (None, 0)

    def turn(self, piece, room):
        """The ciphertext, the IV of the stay that was served, the turn's number, which is 0 where nobody is there, and the tag of a stay that has left."""
        out, iv, turn, done, tag = bytearray(room), bytearray(IV_BYTES), bytearray(TURN_BYTES), bytearray(1), bytearray(TAG_BYTES)
        self.tulvekas.schedule_turn(self.data, piece, out, iv, turn, done, tag)
        return bytes(out), bytes(iv), number(turn), bytes(tag) if done[0] == 1 else None

    def compare(self, stay, tag):
        """By itself the stay's page has the same ciphertext, and this tag."""
        cipher, whole = bytearray(len(stay.text)), bytearray(TAG_BYTES)
        self.tulvekas.seal(stay.key, stay.iv, b"", stay.text, cipher, whole)
        assert (cipher, whole) == (stay.cipher, tag)

    def make_turn(self):
        """One turn; gives 0 where nobody was there."""
        stay, length = self.next()
        sealed = len(stay.cipher) if stay else 0
        cipher, iv, turn, tag = self.turn(stay.text[sealed:sealed + length] if stay else b"", length)
        if turn == 0:
            return 0
        assert iv == stay.iv
        stay.cipher += cipher
        print(f"turn {turn}: {iv.decode()}, {length} bytes")
        if tag is not None:
            print("it leaves with tag", tag.hex())
            self.compare(stay, tag)
        return turn


def join(scheduler, stay):
    scheduler.join(stay)
    print(f"{stay.iv.decode()} joins with {len(stay.text)} bytes")


def refusals(tulvekas, scheduler, stays):
    """None of them is numbered, or changes the scheduler."""
    text = stays[0].text
    print_refusal("a second stay with that number", tulvekas.schedule_join, scheduler.data, stays[1].key, stays[0].iv, 1)
    print_refusal("a text of no bytes", tulvekas.schedule_join, scheduler.data, stays[3].key, stays[3].iv, 0)
    print_refusal("a piece of 4095 bytes", scheduler.turn, text[:4095], MOST_PIECE)
    print_refusal("an output of 4095 bytes", scheduler.turn, text[:MOST_PIECE], 4095)


def fill(tulvekas, scheduler):
    """A scheduler with nobody there has room for 32."""
    for no in range(MOST_STAYS):
        scheduler.join(Stay(no, 1))
    stay = Stay(MOST_STAYS, 1)
    print_refusal("a thirty-third stay", scheduler.join, stay)
    print_refusal("a scheduler without its last byte", tulvekas.schedule_join, scheduler.data[:-1], stay.key, stay.iv, 1)


def main():
    tulvekas = Tulvekas(sys.argv[1])
    scheduler = Scheduler(tulvekas)
    stays = [Stay(42, 10000), Stay(43, 500), Stay(44, 4096), Stay(45, 5000)]
    for stay in stays[:3]:
        join(scheduler, stay)
    refusals(tulvekas, scheduler, stays)
    scheduler.make_turn()
    scheduler.make_turn()
    join(scheduler, stays[3])
    while scheduler.make_turn() != 0:
        pass
    print("nobody is there")
    fill(tulvekas, scheduler)


if __name__ == "__main__":
    main()
