"""Which libraries and which versions of their symbols a program or a shared library asks for, read from its file of the form
ELF for 64 bits; and edits of a few bytes, none of them of its code, by which a program runs with an older C library."""
import struct
from pathlib import Path

NEEDED, PLTRELSZ, HASH, STRTAB, SYMTAB, RELA, RELASZ, JMPREL, FLAGS = 1, 2, 4, 5, 6, 7, 8, 23, 30
LOAD, NOTE = 1, 4
# a place that holds an address of the file itself, wherever that is loaded
RELATIVE = 8
PAGE = 4096
# what runs at the start: by the program's first steps, or by the loader before them
INIT_ARRAY, INIT_ARRAYSZ, PREINIT_ARRAY, PREINIT_ARRAYSZ = 25, 27, 32, 33
VERSYM, FLAGS_1, VERNEED, VERNEEDNUM = 0x6FFFFFF0, 0x6FFFFFFB, 0x6FFFFFFE, 0x6FFFFFFF
# a symbol that no library has, whose name can go
SPARE = b"_ITM_deregisterTMCloneTable\0"


class NoElf(Exception):
    """Why a file isn't read."""


def hash_of(name):
    """The sum of a name as tables of versions hold it."""
    sum = 0
    for byte in name.encode():
        sum = (sum << 4) + byte
        sum = (sum ^ ((sum & 0xF0000000) >> 24)) & 0x0FFFFFFF
    return sum


class Elf:
    """A file's dynamic section, and the tables to which it leads."""

    def __init__(self, data):
        self.data = bytearray(data)
        if self.data[:6] != b"\x7fELF\x02\x01":
            raise NoElf("no ELF file of 64 bits, least byte first")
        begin, size, count = struct.unpack_from("<Q", self.data, 32)[0], *struct.unpack_from("<HH", self.data, 54)
        heads = [struct.unpack_from("<IIQQQQQQ", self.data, begin + size * at) for at in range(count)]
        self.heads = [(begin + size * at, *head) for at, head in enumerate(heads)]
        self.loads = [(head[3], head[2], head[5]) for head in heads if head[0] == LOAD]
        dynamic = [(head[2], head[5]) for head in heads if head[0] == 2]
        if not dynamic:
            raise NoElf("it has no dynamic section: nothing of it is looked up in a library")
        self.place = dynamic[0][0]
        rows = [struct.unpack_from("<QQ", self.data, at) for at in range(dynamic[0][0], sum(dynamic[0]), 16)]
        self.rows = rows[: next((at for at, row in enumerate(rows) if row[0] == 0), len(rows))]
        self.only = dict(self.rows)

    def at(self, address):
        """Where in the file the byte of that address stands."""
        for begin, offset, size in self.loads:
            if begin <= address < begin + size:
                return address - begin + offset
        raise NoElf(f"the address {address:#x} stands nowhere in the file")

    def text(self, offset):
        begin = self.at(self.only[STRTAB]) + offset
        return self.data[begin : self.data.index(0, begin)].decode()

    def needed(self):
        """The libraries, in order."""
        return [self.text(value) for tag, value in self.rows if tag == NEEDED]

    def versions(self):
        """The versions that are asked for: the place of each in the file, its number, library, and name."""
        found = []
        place = self.at(self.only[VERNEED]) if VERNEED in self.only else 0
        for _ in range(self.only.get(VERNEEDNUM, 0)):
            _, count, library, first, following = struct.unpack_from("<HHIII", self.data, place)
            at = place + first
            for _ in range(count):
                _, _, number, name, behind = struct.unpack_from("<IHHII", self.data, at)
                found.append((at, number & 0x7FFF, self.text(library), self.text(name)))
                at += behind
            place += following
        return found

    def asked(self):
        """Each symbol that is looked up elsewhere, with its version or None."""
        versions = {number: name for _, number, _, name in self.versions()}
        count = self.symbols()
        symbols, numbers = self.at(self.only[SYMTAB]), self.at(self.only[VERSYM]) if VERSYM in self.only else None
        found = {}
        for at in range(1, count):
            name, _, _, section = struct.unpack_from("<IBBH", self.data, symbols + 24 * at)
            if section == 0:
                number = struct.unpack_from("<H", self.data, numbers + 2 * at)[0] & 0x7FFF if numbers is not None else 0
                found[self.text(name)] = versions.get(number)
        return found

    def symbols(self):
        """How many symbols there are. A table of hashes says it; without one the names stand right behind the symbols."""
        if HASH in self.only:
            return struct.unpack_from("<I", self.data, self.at(self.only[HASH]) + 4)[0]
        return (self.only[STRTAB] - self.only[SYMTAB]) // 24

    def ask_for_older(self, newer, older):
        """Has all symbols of one version asked for in another one, which is asked for too. It changes eight bytes."""
        places = {name: at for at, _, _, name in self.versions()}
        name, sum = struct.unpack_from("<I", self.data, places[older] + 8)[0], hash_of(older)
        struct.pack_into("<I", self.data, places[newer], sum)
        struct.pack_into("<I", self.data, places[newer] + 8, name)

    def need(self, library):
        """Has one more library loaded. Its name stands in the place of that of a symbol which no library has, and its row in that of
        one which says again that all is looked up at the start."""
        if self.only.get(FLAGS) != 8 or not self.only.get(FLAGS_1, 0) & 1:
            raise NoElf("it has no row that can be spared")
        names = self.at(self.only[STRTAB])
        offset = self.data.find(SPARE, names) - names
        if offset < 0 or self.text(offset) != SPARE[:-1].decode() or len(library) >= len(SPARE):
            raise NoElf("it has no name that can be spared")
        self.data[names + offset : names + offset + len(SPARE)] = library.encode().ljust(len(SPARE), b"\0")
        at = [tag for tag, _ in self.rows].index(FLAGS)
        struct.pack_into("<QQ", self.data, self.place + 16 * at, NEEDED, offset)

    def answer(self, symbol, code):
        """Has calls of a symbol answered by this code, which is put behind all else of the file, in the place of a library's. The head
        of the file's notes, which nothing reads when it runs, becomes that of the code."""
        notes = [head[0] for head in self.heads if head[1] == NOTE]
        last = max(head[4] + head[7] for head in self.heads if head[1] == LOAD)
        if not notes:
            raise NoElf("it has no head that can be spared")
        at, address = -len(self.data) % PAGE + len(self.data), -last % PAGE + last
        begin, names = self.at(self.only[SYMTAB]), self.at(self.only[STRTAB])
        for table, size in ((RELA, RELASZ), (JMPREL, PLTRELSZ)):
            place = self.at(self.only[table]) if table in self.only else 0
            for row in range(place, place + self.only.get(size, 0), 24):
                number = struct.unpack_from("<Q", self.data, row + 8)[0] >> 32
                name = names + struct.unpack_from("<I", self.data, begin + 24 * number)[0]
                if number and self.data[name : name + len(symbol) + 1] == symbol.encode() + b"\0":
                    struct.pack_into("<QQ", self.data, row + 8, RELATIVE, address)
        struct.pack_into("<IIQQQQQQ", self.data, notes[0], LOAD, 5, at, address, address, len(code), len(code), PAGE)
        self.data += bytes(at - len(self.data)) + code

    def start_by_loader(self):
        """Has the loader run what is to run before `main`: here that takes the words of the command, and nothing else. A C library
        up to 2.33 leaves it to the program's first steps, and those that newer ones come with leave it to the library."""
        tags = {INIT_ARRAY: PREINIT_ARRAY, INIT_ARRAYSZ: PREINIT_ARRAYSZ}
        for at, (tag, value) in enumerate(self.rows):
            if tag in tags:
                struct.pack_into("<QQ", self.data, self.place + 16 * at, tags[tag], value)


def read(file):
    return Elf(Path(file).read_bytes())


def number_of(version):
    """The numbers of a version, GLIBC_2.2.5 as (2, 2, 5)."""
    return tuple(map(int, version.rpartition("_")[2].split(".")))
