"""A tool's end of the line: packets out as frames, frames in as packets. Every frame that comes is checked."""
import os
import select
import termios
import time
import tty

SYNC, ESC = 0x9A, 0x9B
# So long a tool waits for a frame before it gives up: a bound on a run that went wrong, and no promise of the slave's.
PATIENCE = 20


class Wrong(Exception):
    """Something on the line is not as it should be."""


class Silence(Wrong):
    """Nothing more comes."""


def hexed(packet):
    return " ".join(f"{byte:02X}" for byte in packet)


def frame(ctr, packet):
    message = bytes([len(packet), ctr]) + bytes(packet)
    message += bytes([sum(message) % 256])
    return bytes([SYNC]) + message.replace(b"\x9b", b"\x9b\x00").replace(b"\x9a", b"\x9b\x01")


def set_speed(line, baud):
    speed = getattr(termios, f"B{baud}", None)
    if speed is None:
        raise Wrong(f"no serial port of this system runs at {baud} baud")
    settings = termios.tcgetattr(line)
    # Eight bits, no parity, one stop bit, no other wire than the two for data.
    settings[2] = termios.CS8 | termios.CREAD | termios.CLOCAL
    settings[4] = settings[5] = speed
    termios.tcsetattr(line, termios.TCSAFLUSH, settings)


class Wire:
    def __init__(self, name, baud=None):
        # Without O_NONBLOCK a port would wait for a modem before it opens.
        self.line = os.open(name, os.O_RDWR | os.O_NOCTTY | os.O_NONBLOCK)
        try:
            tty.setraw(self.line)
            if baud is not None:
                set_speed(self.line, baud)
        except termios.error:
            raise Wrong(f"{name} is no serial port") from None
        os.set_blocking(self.line, True)
        self.to_slave = 0
        self.from_slave = 0
        self.waiting = b""
        self.longest = 255  # until CONNECT's answer says what the slave's packets have at most

    def close(self):
        os.close(self.line)

    def send(self, packet):
        os.write(self.line, frame(self.to_slave, packet))
        self.to_slave = (self.to_slave + 1) % 256

    def send_torn(self, packet):
        """The front of a frame, as when the plug is pulled."""
        os.write(self.line, frame(self.to_slave, packet)[:-3])

    def byte(self, until):
        if not self.waiting:
            ready, _, _ = select.select([self.line], [], [], max(0, until - time.monotonic()))
            if not ready:
                raise Silence(f"nothing has come from the slave for {PATIENCE} seconds")
            self.waiting = os.read(self.line, 4096)
            if not self.waiting:
                raise Silence("the line has ended")
        first, self.waiting = self.waiting[0], self.waiting[1:]
        return first

    def message_byte(self, until):
        byte = self.byte(until)
        if byte == ESC:
            after = self.byte(until)
            if after > 1:
                raise Wrong(f"ESC is followed by {after:02X}")
            return ESC - after
        if byte == SYNC:
            self.waiting = bytes([SYNC]) + self.waiting
            raise Wrong("a SYNC stands inside a frame")
        return byte

    def frame(self, until):
        """CTR and packet of the next frame, which must be whole."""
        first = self.byte(until)
        if first != SYNC:
            raise Wrong(f"{first:02X} stands where a frame begins")
        length = self.message_byte(until)
        if not 1 <= length <= self.longest:
            raise Wrong(f"a frame has the length {length}")
        ctr = self.message_byte(until)
        packet = bytes(self.message_byte(until) for _ in range(length))
        check = self.message_byte(until)
        if check != (length + ctr + sum(packet)) % 256:
            raise Wrong(f"the checksum of {hexed(packet)} is {check:02X}")
        return ctr, packet

    def packet(self):
        """The packet of the next frame, which must be whole and carry the next CTR."""
        ctr, packet = self.frame(time.monotonic() + PATIENCE)
        if ctr != self.from_slave:
            raise Wrong(f"{hexed(packet)} has CTR {ctr}, and {self.from_slave} is the next")
        self.from_slave = (ctr + 1) % 256
        return packet

    def join(self, expected):
        """Passes over what an earlier session has left on the line, up to a packet that is expected, and gives it. CTRs are
        checked from there on."""
        until = time.monotonic() + PATIENCE
        while True:
            try:
                ctr, packet = self.frame(until)
            except Silence:
                raise
            except Wrong:
                continue
            if expected(packet):
                self.from_slave = (ctr + 1) % 256
                return packet
