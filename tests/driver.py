"""The slave at the end of a pipe: compare/driver.c, which says how they talk, and frames as a tool makes and reads them."""
import subprocess

SYNC = 0x9A
MEMORY, ROOM = 4096, 135
START = 1  # the start number where none is said


def little(number, size):
    return number.to_bytes(size, "little")


def escaped(message):
    return message.replace(b"\x9b", b"\x9b\x00").replace(b"\x9a", b"\x9b\x01")


def plain(wire):
    return wire.replace(b"\x9b\x01", b"\x9a").replace(b"\x9b\x00", b"\x9b")


def frame(packet):
    message = bytes([len(packet), 0]) + packet
    return bytes([SYNC]) + escaped(message + bytes([sum(message) % 256]))


class Slave:
    def __init__(self, words):
        self.end = subprocess.Popen(words, stdin=subprocess.PIPE, stdout=subprocess.PIPE)
        self.state = int.from_bytes(self.end.stdout.read(4), "little")

    def lent(self, kind, state=None):
        return bytes([kind]) + little(self.state if state is None else state, 2) + little(MEMORY, 2) * 2

    def power_up(self, start=START, state=None):
        return self.lent(0, state) + little(start, 4)

    def bytes(self, wire, state=None):
        return b"".join(self.lent(1, state) + bytes([byte]) for byte in wire)

    def event(self, number, clock=0, state=None):
        return self.lent(2, state) + little(number, 4) + little(clock, 2)

    def slot(self, room=ROOM, state=None):
        return self.lent(3, state) + bytes([room])

    def measured(self, place, values):
        return self.lent(4) + little(place, 2) + bytes([len(values)]) + values

    def exchanges(self, commands):
        """Each command, and a slot for its answer."""
        return b"".join(self.bytes(frame(bytes.fromhex(command))) + self.slot() for command in commands)

    def run(self, script):
        """What each call returned, and the frame of those that wrote one."""
        self.end.stdin.write(little(len(script), 4) + script)
        self.end.stdin.flush()
        reply = self.end.stdout.read(int.from_bytes(self.end.stdout.read(4), "little"))
        calls, at = [], 0
        while at < len(reply):
            returned, wrote = int.from_bytes(reply[at : at + 4], "little"), reply[at + 5]
            calls.append((returned >> 16, reply[at + 6 : at + 6 + wrote][: returned & 0xFFFF]))
            at += 6 + wrote
            for _ in range(2):
                at += 4 + int.from_bytes(reply[at + 2 : at + 4], "little")
        return calls

    def asked(self, commands, start=START):
        """The answer to each command, from a power-up on; None where there was none."""
        calls = self.run(self.power_up(start) + self.exchanges(commands))
        answers, at = [], 1
        for command in commands:
            at += len(frame(bytes.fromhex(command)))
            sent = calls[at][1]
            answers.append(plain(sent[1:])[2:-1] if sent else None)
            at += 1
        return answers
