"""Seals the pages of two stays into a page file, opens them by stay and page number and says until when they are kept; then shows what is refused: a
date that the calendar lacks, a page that is not there, one whose ciphertext was changed, and all of them once a stored length is out of range. Takes
the path of the shared library as its argument."""

import ctypes
import datetime
import struct
import sys

# In use a key is 32 random bytes that nobody else has.
KEY = bytes(range(0x50, 0x60)) + bytes(range(0x0A, 0x100, 0x10))
STAY, OTHER = b"2026 no. 042", b"2026 no. 043"

PAGE_BYTES, STAY_BYTES, MOST_PAGE_TEXT, LENGTH_BYTES = 512, 12, 474, 8
DAY_BYTES, DATE_BYTES = 8, 4


class Refused(Exception):
    """A call answered a number of the table in include/tulvekas.h."""

    def __init__(self, number):
        super().__init__(f"refused {number}")


def read(data):
    """A slice that is only read: a pointer and a length."""
    return ctypes.c_char_p(data), ctypes.c_size_t(len(data))


def written(data):
    """A slice that is written, of a bytearray."""
    return (ctypes.c_ubyte * len(data)).from_buffer(data), ctypes.c_size_t(len(data))


class Library:
    """The shared library, and its calls on days and dates."""

    def __init__(self, path):
        self.calls = ctypes.CDLL(path)

    def call(self, name, *arguments):
        function = getattr(self.calls, name)
        function.restype = ctypes.c_uint64
        number = function(*arguments)
        if number != 0:
            raise Refused(number)

    def day(self, year, month, day):
        number = bytearray(DAY_BYTES)
        self.call("tulvekas_day", ctypes.c_uint64(year), ctypes.c_uint64(month), ctypes.c_uint64(day), *written(number))
        return int.from_bytes(number, "little")

    def date_by(self, name, day):
        date = bytearray(DATE_BYTES)
        self.call(name, ctypes.c_uint64(day), *written(date))
        return datetime.date(*struct.unpack("<HBB", date))

    def date(self, day):
        return self.date_by("tulvekas_date", day)

    def kept_until(self, departure):
        return self.date_by("tulvekas_kept_until", departure)

    def kept(self, today, departure):
        kept = bytearray(1)
        self.call("tulvekas_kept", ctypes.c_uint64(today), ctypes.c_uint64(departure), *written(kept))
        return kept[0] == 1


class PageFile:
    """A page file of so many places. Those that no page is sealed into stay all zero."""

    def __init__(self, library, places):
        self.library = library
        self.data = bytearray(PAGE_BYTES * places)

    def seal(self, stay, page, day, text, place):
        self.library.call("tulvekas_file_seal", *read(KEY), *read(stay), ctypes.c_uint32(page), ctypes.c_uint64(day), *read(text),
                          ctypes.c_uint64(place), *written(self.data))

    def open(self, stay, page):
        opened, length = bytearray(MOST_PAGE_TEXT), bytearray(LENGTH_BYTES)
        self.library.call("tulvekas_file_open", *read(KEY), *read(stay), ctypes.c_uint32(page), *read(bytes(self.data)), *written(opened),
                          *written(length))
        return bytes(opened[: int.from_bytes(length, "little")])

    def stay(self, place):
        """The stay at a place and its departure, which can be read there without the key."""
        page = self.data[PAGE_BYTES * place : PAGE_BYTES * (place + 1)]
        return page[:STAY_BYTES].decode(), int.from_bytes(page[16:20], "little")

    def print_page(self, stay, page):
        """Opens a page and prints its text, or the number of the refusal."""
        try:
            said = self.open(stay, page).decode()
        except Refused as refusal:
            said = refusal
        print(f"{stay.decode()}, page {page}: {said}")

    def print_kept_until(self, place):
        stay, departure = self.stay(place)
        print(f"{stay}: departure {self.library.date(departure)}, kept until {self.library.kept_until(departure)}")

    def print_kept(self, place, today):
        stay, departure = self.stay(place)
        print(f"{stay}: {'kept' if self.library.kept(today, departure) else 'not kept'}")


def main():
    library = Library(sys.argv[1])
    file = PageFile(library, 4)
    file.seal(STAY, 0, library.day(2026, 11, 15), b"Mari Saar", 0)
    file.seal(OTHER, 0, library.day(2026, 8, 31), b"Jaan Tamm, Liis Tamm", 1)
    file.seal(STAY, 1, library.day(2026, 11, 15), b"tax for two nights: 4.00", 2)

    for place in range(4):
        print(f"tag at place {place}: {file.data[PAGE_BYTES * place + 496 : PAGE_BYTES * (place + 1)].hex()}")
    file.print_page(STAY, 0)
    file.print_page(STAY, 1)
    file.print_page(OTHER, 0)

    file.print_kept_until(0)
    file.print_kept_until(1)
    print("on 2028-02-29:")
    file.print_kept(0, library.day(2028, 2, 29))
    file.print_kept(1, library.day(2028, 2, 29))
    print("on 2028-03-01:")
    file.print_kept(0, library.day(2028, 3, 1))
    file.print_kept(1, library.day(2028, 3, 1))

    print("a date that the calendar lacks:")
    try:
        library.day(2026, 2, 29)
    except Refused as refusal:
        print(f"2026-02-29: {refusal}")

    print("a page that is not there:")
    file.print_page(STAY, 2)

    print("a bit of the ciphertext at place 2 changed:")
    file.data[2 * PAGE_BYTES + 22] ^= 1
    file.print_page(STAY, 0)
    file.print_page(STAY, 1)
    file.data[2 * PAGE_BYTES + 22] ^= 1

    print("the length stored at place 1 set to 475:")
    file.data[PAGE_BYTES + 20 : PAGE_BYTES + 22] = (475).to_bytes(2, "little")
    file.print_page(STAY, 0)
    file.print_page(STAY, 1)
    file.print_page(OTHER, 0)


if __name__ == "__main__":
    main()
