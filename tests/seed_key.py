"""examples/seed_key.c as a tool uses it: loads the library, takes a seed from the slave, and unlocks with the key to it.
Arguments: the folder of the libraries, and how to run compare/driver.c."""
import ctypes
import pathlib
import re
import struct
import sys

from driver import Slave, little

CALIBRATION, LISTS = 0x01, 0x04
DONE, NO_SUCH_PRIVILEGE, WRONG_SEED_LENGTH, TOO_LITTLE_ROOM = range(4)
STARTS = [0, 1, 2, 0x80000000, 0xFFFFFFFF, 0x9A9B9A9B, *(0x10001 * n for n in range(1, 60))]
UNTOUCHED = 0xEE


class Checks:
    passed = failed = 0

    def same(self, what, expected, got):
        if expected == got:
            self.passed += 1
        else:
            self.failed += 1
            print(f"{what}: expected {expected!r}, got {got!r}")


class Library:
    def __init__(self, path):
        library, byte = ctypes.CDLL(path), ctypes.POINTER(ctypes.c_uint8)
        self.available, self.compute = library.XCP_GetAvailablePrivileges, library.XCP_ComputeKeyFromSeed
        self.available.argtypes, self.available.restype = [byte], ctypes.c_uint32
        self.compute.argtypes = [ctypes.c_uint8, ctypes.c_uint8, byte, byte, byte]
        self.compute.restype = ctypes.c_uint32

    def privileges(self):
        which = ctypes.c_uint8(UNTOUCHED)
        return self.available(ctypes.byref(which)), which.value

    def key(self, privilege, seed, room):
        """What it returns, the length that it tells, and all bytes from the key's place on."""
        length, out = ctypes.c_uint8(room), (ctypes.c_uint8 * 16)(*[UNTOUCHED] * 16)
        returned = self.compute(privilege, len(seed), (ctypes.c_uint8 * max(1, len(seed)))(*seed), ctypes.byref(length), out)
        return returned, length.value, bytes(out)


def unlocked(c, slave, library):
    """The key to each seed opens its own resource, and that of the other one does not."""
    for start in STARTS:
        for resource, other in ((CALIBRATION, LISTS), (LISTS, CALIBRATION)):
            asking = ["FF 00", f"F8 00 {resource:02X}"]
            seed = slave.asked(asking, start)[-1][2:]
            returned, length, out = library.key(resource, seed, 4)
            c.same(f"start {start:X}, a key for {resource:02X}", (DONE, 4), (returned, length))
            answer = slave.asked([*asking, "F7 04 " + out[:4].hex()], start)[-1]
            c.same(f"start {start:X}, what it leaves locked", b"\xff" + bytes([other]), answer)
            wrong = library.key(other, seed, 4)[2]
            c.same(f"start {start:X}, the other key", b"\xfe\x25", slave.asked([*asking, "F7 04 " + wrong[:4].hex()], start)[-1])
    # Seeds of the slave seldom come near 2^32, where the sum wraps around.
    for resource, addend in ((CALIBRATION, 0xD05E), (LISTS, 0xDA00)):
        for seed in (0, 1, 2**32 - addend - 1, 2**32 - addend, 2**32 - 1):
            number = (seed + addend) % 2**32
            key = little((number << 8 | number >> 24) % 2**32, 4)
            c.same(f"key for {resource:02X} to {seed:X}", key, library.key(resource, little(seed, 4), 4)[2][:4])


def both(c, slave, library):
    """Both resources in one session, as a tool that wants everything does it."""
    commands = ["FF 00"]
    for resource in (CALIBRATION, LISTS):
        commands.append(f"F8 00 {resource:02X}")
        seed = slave.asked(commands)[-1][2:]
        commands.append("F7 04 " + library.key(resource, seed, 255)[2][:4].hex())
    c.same("nothing is locked any more", b"\xff\0\0\0\0\0", slave.asked([*commands, "FD"])[-1])


def refused(c, library):
    seed, nothing = bytes([0x21, 0x20, 4, 0]), bytes([UNTOUCHED] * 16)
    c.same("privileges that there are", (DONE, CALIBRATION | LISTS), library.privileges())
    for privilege in range(256):
        good = privilege in (CALIBRATION, LISTS)
        c.same(f"privilege {privilege:02X}", DONE if good else NO_SUCH_PRIVILEGE, library.key(privilege, seed, 4)[0])
    for length in range(9):
        told = library.key(CALIBRATION, seed[:length] + bytes(max(0, length - 4)), 4)
        c.same(f"a seed of {length} bytes", DONE if length == 4 else WRONG_SEED_LENGTH, told[0])
    for room in (0, 1, 2, 3, 4, 5, 255):
        told = library.key(CALIBRATION, seed, room)
        key = bytes([0, 0x7F, 0xF0, 4]) + nothing[4:]
        c.same(f"room for {room} bytes", (DONE, 4, key) if room >= 4 else (TOO_LITTLE_ROOM, room, nothing), told)
    # What is wrong first is told, and nothing is written.
    c.same("all wrong", (NO_SUCH_PRIVILEGE, 0, nothing), library.key(2, b"", 0))
    c.same("seed and room wrong", (WRONG_SEED_LENGTH, 0, nothing), library.key(LISTS, b"", 0))


def exports(path):
    """The names that a library for Windows exports, by its own tables."""
    image = path.read_bytes()
    number = lambda at, size=4: int.from_bytes(image[at : at + size], "little")
    header = number(0x3C)
    optional = header + 24
    wide = number(optional, 2) == 0x20B
    table = optional + number(header + 20, 2)
    sections = [struct.unpack_from("<IIII", image, table + 40 * i + 8) for i in range(number(header + 6, 2))]

    def place(address):
        return next(raw + address - start for _, start, size, raw in sections if start <= address < start + size)
    exported = place(number(optional + (112 if wide else 96)))
    names = place(number(exported + 32))
    starts = [place(number(names + 4 * i)) for i in range(number(exported + 24))]
    return [image[at : image.index(b"\0", at)].decode() for at in starts]


def named(c, folder):
    """The names are those in the A2L file and in what the source says to type."""
    source = pathlib.Path("examples/seed_key.c").read_text(encoding="ascii")
    described = pathlib.Path("docs/controller.a2l").read_text(encoding="ascii")
    name = re.search(r'^ *SEED_AND_KEY_EXTERNAL_FUNCTION "([^"]*)"', described, re.M)[1]
    c.same("the library of docs/controller.a2l is built by", True, f"-o {name} examples/seed_key.c" in source)
    functions = sorted(re.findall(r"^EXPORT uint32_t (\w+)\(", source, re.M))
    c.same("functions", ["XCP_ComputeKeyFromSeed", "XCP_GetAvailablePrivileges"], functions)
    for kind in ("windows-64", "windows-32"):
        c.same(f"what {kind} exports", functions, sorted(exports(folder / kind / name)))


def main():
    folder = pathlib.Path(sys.argv[1])
    c, slave, library = Checks(), Slave(sys.argv[2:]), Library(folder / "seed_key.so")
    unlocked(c, slave, library)
    both(c, slave, library)
    refused(c, library)
    named(c, folder)
    slave.end.stdin.close()
    c.same("how the driver ended", 0, slave.end.wait())
    print(f"{c.passed} passed, {c.failed} failed")
    sys.exit(c.failed > 0)


main()
