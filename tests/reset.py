"""The image of examples/cortex-m in an emulator, whose memory is written over while it runs: the host answers CONNECT again. Then
its main loop is made to hang, and the watchdog resets the board; what was kept outlives that. Arguments: the image, the command
that lists its symbols, and the words that run it."""
import os
import re
import socket
import subprocess
import sys
import tempfile
import time

from tool import CALIBRATION, DOSE, FIRST_DOSE, LISTS, OTHER_DOSE, PATIENCE, Gun, Tool
from wire import Wrong, hexed

LOCKED_BOTH = "FF 00 05 00 00 00"
HERE = bytes.fromhex("FE E7")  # for a Cortex-M: a branch to itself


class Debugger:
    """At the emulator's door for debuggers. The board stands still while it is asked, and goes on afterwards."""

    def __init__(self, path):
        end = time.monotonic() + PATIENCE
        while not os.path.exists(path) and time.monotonic() < end:
            time.sleep(0.05)
        self.door = socket.socket(socket.AF_UNIX)
        self.door.settimeout(PATIENCE)
        self.door.connect(path)
        self.said = b""
        self.ask("m0,1")
        self.send("c")

    def packet(self):
        """The next one; each is acknowledged, because until then nothing but a packet is heard at the other end."""
        while True:
            found = re.search(rb"\$([^#]*)#[0-9a-f]{2}", self.said)
            if found:
                self.said = self.said[found.end():]
                self.door.sendall(b"+")
                return found.group(1).decode()
            more = self.door.recv(4096)
            if not more:
                raise Wrong("the emulator has closed its door")
            self.said += more

    def send(self, command):
        self.door.sendall(f"${command}#{sum(command.encode()) % 256:02x}".encode())

    def ask(self, command):
        """OK, an error or digits; that the board has stopped, as it does when somebody comes, is passed over."""
        self.send(command)
        answer = self.packet()
        while answer.startswith("T"):
            answer = self.packet()
        return answer

    def __enter__(self):
        self.door.sendall(b"\x03")
        while not self.packet().startswith("T"):
            pass
        return self

    def __exit__(self, *_):
        self.send("c")

    def read(self, address, size=1):
        return int.from_bytes(bytes.fromhex(self.ask(f"m{address:x},{size}")), "little")

    def write(self, address, data):
        if self.ask(f"M{address:x},{len(data)}:{data.hex()}") != "OK":
            raise Wrong("the emulator does not let its memory be written")


class Checks:
    passed = failed = 0

    def same(self, what, expected, got):
        self.passed, self.failed = self.passed + (expected == got), self.failed + (expected != got)
        if expected != got:
            print(f"{what}: expected {expected!r}, got {got!r}")


class Image:
    """The addresses of its names."""

    def __init__(self, lister, image):
        listed = subprocess.run([lister, image], capture_output=True, text=True, check=True).stdout
        self.names = [line.split() for line in listed.splitlines()]

    def __getitem__(self, name):
        found = [int(words[0], 16) for words in self.names if words[-1] == name]
        if len(found) != 1:
            raise Wrong(f"the image has {len(found)} symbols {name}")
        return found[0]


class Bench:
    def __init__(self, gun, door, image):
        self.image, self.checks = image, Checks()
        self.line = gun.switch_on()
        self.tool = Tool(self.line)
        self.debugger = Debugger(door)

    def until(self, what, holds):
        """Looks into the board's memory until it is so."""
        end = time.monotonic() + 2 * PATIENCE
        while True:
            with self.debugger as debugger:
                if holds(debugger):
                    return
            if time.monotonic() > end:
                raise Wrong(f"{what}: this has not happened")
            time.sleep(0.1)

    def connect_anew(self):
        """The slave's CTR must be 0 again."""
        self.tool.plug_in(self.line)
        self.tool.connect()


def dose(tool):
    answer = tool.ask(f"F4 02 00 00 {DOSE:02X} 00 00 00", None)
    return int.from_bytes(answer[1:], "little")


def damage(b):
    """A byte of the mark, while a session is open and calibration unlocked."""
    third = b.image["state"] + 2
    b.tool.connect()
    b.tool.unlock(CALIBRATION, LISTS)
    b.checks.same("the dose of a new gun", FIRST_DOSE, dose(b.tool))
    b.tool.ask(f"ED 02 00 00 {DOSE:02X} 00 00 00 {OTHER_DOSE:02X} 00")
    with b.debugger as debugger:
        mark = debugger.read(third)
        debugger.write(third, bytes([mark ^ 0x10]))
    b.connect_anew()
    b.checks.same("what is locked then", LOCKED_BOTH, hexed(b.tool.ask("FD", None)))
    b.checks.same("the dose then", OTHER_DOSE, dose(b.tool))
    b.tool.ask("FE")
    with b.debugger as debugger:
        b.checks.same("the mark is whole again", mark, debugger.read(third))


def hang(b):
    """Once the host has kept what the session left, its main loop comes to an instruction that goes to itself."""
    milliseconds = b.image["milliseconds"]
    number = b.image["kept"] + 4  # behind the place
    b.until("the settings are kept", lambda debugger: debugger.read(number, 4) == 1)
    with b.debugger as debugger:
        before = debugger.read(milliseconds, 4)
        debugger.write(b.image["board_rest"], HERE)
    b.until("the watchdog resets the board", lambda debugger: debugger.read(milliseconds, 4) < before)
    b.connect_anew()
    b.checks.same("the dose after a reset", OTHER_DOSE, dose(b.tool))
    b.tool.ask("FE")


def main():
    image, lister, *words = sys.argv[1:]
    passed, failed = 0, 1
    with tempfile.TemporaryDirectory() as folder:
        door = os.path.join(folder, "door")
        gun = Gun([*words, "-gdb", f"unix:{door},server=on,wait=off"], os.path.join(folder, "kept"))
        try:
            bench = Bench(gun, door, Image(lister, image))
            damage(bench)
            hang(bench)
            passed, failed = bench.checks.passed, bench.checks.failed
        except (Wrong, OSError) as why:
            print(why)
        finally:
            gun.switch_off()
    print(f"{passed} passed, {failed} failed")
    sys.exit(failed > 0)


main()
