"""A setting tool at the controller of host.c: it unlocks, allocates the one long list of a weighing gun and the eight short ones
of a trough reader, writes the unit byte, reads it back while samples pour out, loads a drug table, and leaves all as it was. Then
a script tries keys until the controller stays shut, and the power switch opens it. What a tool wrote outlives the next switch.

    tool.py HOST WORDS...                   runs the host by these words, which names its line first, and talks to it
    tool.py --port DEVICE [--baud N]        talks to a controller at a serial port of this computer; no script is let near
                                            it, because its power switch is not the tool's

Each packet that comes is checked. Ends with 0 if all were right; else with a line that says what was not.
"""
import argparse
import os
import re
import select
import subprocess
import sys
import tempfile
import time

from wire import PATIENCE, Wire, Wrong, hexed

CALIBRATION, LISTS = 0x01, 0x04
ADDENDS = {CALIBRATION: 0xD05E, LISTS: 0xDA00}
# The controller's memory, as in docs/controller.a2l: unit byte, dose and drug table are settings, the others measured values.
UNIT, DOSE, DRUGS, WEIGHINGS, WEIGHT = 0x10, 0x20, 0x100, 0x00, 0x04
UNITS = ["kilograms", "pounds"]
FIRST_DOSE, OTHER_DOSE = 25, 30  # tenths of a millilitre: the host's own, and one that is written
# A table that is made up: twenty drugs, and of each the dose at eight weights, in tenths of a millilitre.
TABLE = b"".join(((10 + drug) * (1 + weight)).to_bytes(2, "little") for drug in range(20) for weight in range(8))
DRUG_SIZE, CORRECTED = 2 * 8, 7
POOL_LISTS, POOL_ODTS = 8, 16  # in all lists together
LOCKED, PASSED = "FE 25", "FE 30"
SHUT = "three wrong keys since power-up; switch the gun off and on"
WRONG_KEY = "a wrong key; take the tool for this gun: three wrong keys shut it until it is switched off and on"
# An answer may come where no sample waits; it is asked for again until one was overtaken.
ATTEMPTS = 50


def words(who, what, packet, more=""):
    shown = hexed(packet) if len(packet) <= 8 else hexed(packet[:7]) + " .."
    print(f"{who:7} {what:34} {shown:24}{more}".rstrip())


def explain(word, meaning):
    print(f"        ({word}: {meaning})")


def connected(packet):
    """Whether it is the answer to CONNECT, by a slave of this kind: two resources, and packets of 8 bytes or more."""
    return len(packet) == 8 and packet[:3] == b"\xff\x05\x00" and packet[5:] == b"\x00\x01\x01" and min(packet[3:5]) >= 8


class Sample:
    """A packet of lists with so many ODTs each, as set_up has them made: each repeats the number of weighings, so that several
    show one event. What a made-up scale shows is known as well."""

    def __init__(self, packet, lists, odts, made_up):
        if packet[0] >= lists * odts or len(packet) != 8:
            raise Wrong(f"{hexed(packet)} is no packet of a list")
        self.list, self.odt = divmod(packet[0], odts)
        body = packet[3:] if self.odt == 0 else packet[1:]
        self.weighings = int.from_bytes(body[:4], "little")
        self.unit = body[-1]
        if made_up and self.odt > 0 and int.from_bytes(body[4:6], "little") != 1000 + self.weighings * 7 % 50:
            raise Wrong(f"{hexed(packet)} has a weight that the scale did not show")

    def __str__(self):
        return f"list {self.list}, packet {self.odt} of weighing {self.weighings}"


class Tool:
    """At a host that was started for it the scale is the example's, and the slave's CTR is 0. At a port a controller may have
    been at work for long."""

    def __init__(self, name, baud=None, started=True):
        self.wire = Wire(name, baud)
        self.started = started
        self.connected, self.max_cto = None, 8  # what CONNECT was answered, and how long it says that packets may be
        self.answers = self.samples = 0
        self.has_lists(0, 1)

    def has_lists(self, lists, odts):
        """From now on there are so many lists, of so many ODTs each, and no sample of theirs has come."""
        self.lists, self.odts = lists, odts
        self.last = [None] * (lists * odts)

    def sampled(self, packet):
        """Takes note of a packet: each list's samples go up, and a later packet is of the same event as the one before it."""
        sample = Sample(packet, self.lists, self.odts, self.started)
        before = self.last[packet[0]]
        if before and sample.weighings <= before.weighings:
            raise Wrong(f"{sample} comes after {before}")
        if sample.odt > 0:
            first = self.last[packet[0] - 1]
            if not first or (first.weighings, first.unit) != (sample.weighings, sample.unit):
                raise Wrong(f"{sample} does not belong to {first}")
        self.last[packet[0]] = sample
        self.samples += 1
        return sample

    def answer(self):
        """The next answer, and the samples that came before it."""
        samples = []
        while True:
            packet = self.wire.packet()
            if packet[0] >= 0xFE:
                self.answers += 1
                return packet, samples
            samples.append(self.sampled(packet))

    def ask(self, command, expected="FF", locked=None):
        """The answer, which must be the expected one, if there is one; locked says what to do about a 25."""
        self.wire.send(bytes.fromhex(command))
        packet, _ = self.answer()
        if locked and packet == bytes.fromhex(LOCKED):
            raise Wrong(locked)
        if expected is not None and packet != bytes.fromhex(expected):
            raise Wrong(f"{command} was answered {hexed(packet)}, and {expected} is right")
        return packet

    def show(self, what, command, expected="FF", more="", who="tool"):
        words(who, what, bytes.fromhex(command))
        words("slave", "   answers", self.ask(command, expected), more)

    def plug_in(self, name):
        """At a line anew, where the slave's CTR and the weighings begin again, and there are no lists."""
        self.wire.close()
        self.wire = Wire(name)
        self.has_lists(0, 1)

    def connect(self):
        """The answer says how long packets may be: MAX_CTO is of commands and answers, MAX_DTO of samples."""
        words("tool", "connects", b"\xff\x00")
        if self.started:
            answer = self.ask("FF 00", None)
        else:
            self.wire.send(b"\xff\x00")
            answer = self.wire.join(connected)
            self.answers += 1
        if not connected(answer):
            raise Wrong(f"CONNECT was answered {hexed(answer)}")
        self.connected = hexed(answer)
        self.max_cto = answer[3]
        self.wire.longest = max(answer[3:5])
        words("slave", "   answers", answer, f"packets of up to {self.max_cto} bytes")

    def read_found(self):
        """The unit byte as it is found."""
        words("tool", "reads it", b"\xf5\x01")
        answer = self.ask("F5 01", None)
        if len(answer) != 2 or answer[0] != 0xFF or answer[1] >= len(UNITS):
            raise Wrong(f"the unit byte was read as {hexed(answer)}")
        words("slave", "   answers", answer, UNITS[answer[1]])
        return answer[1]

    def point(self, address):
        self.ask(f"F6 00 00 00 {hexed(address.to_bytes(4, 'little'))}")

    def read(self, address, size):
        """So many bytes of the settings, in as few packets as can be; gives these packets."""
        answers = []
        self.point(address)
        while size > 0:
            count = min(size, self.max_cto - 1)
            answers.append(self.ask(f"F5 {count:02X}", None))
            if answers[-1][0] != 0xFF or len(answers[-1]) != 1 + count:
                raise Wrong(f"UPLOAD of {count} was answered {hexed(answers[-1])}")
            size -= count
        return answers

    def write(self, address, data):
        """Bytes into the settings: one SHORT_DOWNLOAD if that has room, else as few DOWNLOADs as can be; gives these packets."""
        place = hexed(address.to_bytes(4, "little"))
        if len(data) <= self.max_cto - 8:
            packets = [f"ED {len(data):02X} 00 00 {place} {hexed(data)}"]
        else:
            self.point(address)
            most = self.max_cto - 2
            parts = [data[at : at + most] for at in range(0, len(data), most)]
            packets = [f"F0 {len(part):02X} {hexed(part)}" for part in parts]
        for packet in packets:
            self.ask(packet)
        return [bytes.fromhex(packet) for packet in packets]

    def seed(self, resource):
        answer = self.ask(f"F8 00 {resource:02X}", None, f"GET_SEED: refused, 25: {SHUT}")
        if len(answer) != 6 or answer[:2] != b"\xff\x04":
            raise Wrong(f"GET_SEED was answered {hexed(answer)}")
        return int.from_bytes(answer[2:], "little")

    def unlock(self, resource, left):
        summed = (self.seed(resource) + ADDENDS[resource]) % 2**32
        key = (summed << 8 | summed >> 24) % 2**32
        self.ask(unlocking(key), f"FF {left:02X}", f"UNLOCK: refused, 25: {WRONG_KEY}")


def unlocking(key):
    return "F7 04 " + hexed(key.to_bytes(4, "little"))


def free(tool):
    """Also stops what runs, and drops what waits: what comes after the answer is of new lists."""
    tool.show("frees what lists there are", "D6")
    tool.has_lists(0, 1)


def ask_for_each(tool, what, commands):
    """The same of every list or ODT; the first is shown."""
    for command in commands:
        tool.ask(command)
    more = f"the first of {len(commands)} packets" if len(commands) > 1 else ""
    words("tool", what, bytes.fromhex(commands[0]), more)
    words("slave", "   answers", b"\xff", more and "and so to each")


def allocate(tool, lists, odts):
    """So many lists of so many ODTs each; in the first ODT of a list two entries, in each later one three."""
    numbers = range(lists)
    tool.show("wants 1 list" if lists == 1 else f"wants {lists} lists", f"D5 00 {lists:02X} 00")
    ask_for_each(tool, f"wants {odts} ODTs in {'it' if lists == 1 else 'each'}",
                 [f"D4 00 {number:02X} 00 {odts:02X}" for number in numbers])
    ask_for_each(tool, "wants entries in each ODT",
                 [f"D3 00 {number:02X} 00 {odt:02X} {3 if odt else 2:02X}" for number in numbers for odt in range(odts)])
    tool.show("asks how many lists there are", "DA", f"FF 11 {lists:02X} 00 02 00 00 00", f"{lists}, as wanted")
    tool.has_lists(lists, odts)


def set_up(tool, number):
    """A list's first packet has weighings and unit; each later one has weighings, weight and unit."""
    for odt in range(tool.odts):
        tool.ask(f"E2 00 {number:02X} 00 {odt:02X} 00")
        tool.ask(f"E1 FF 04 01 {WEIGHINGS:02X} 00 00 00")
        if odt > 0:
            tool.ask(f"E1 FF 02 01 {WEIGHT:02X} 00 00 00")
        tool.ask(f"E1 FF 01 00 {UNIT:02X} 00 00 00")
    tool.ask(f"E0 10 {number:02X} 00 00 00 01 00")
    tool.ask(f"DE 02 {number:02X} 00", f"FF {tool.odts * number:02X}")


def pour(tool):
    """Starts all lists and lets every one of their packets come twice."""
    for number in range(tool.lists):
        set_up(tool, number)
    tool.ask("DD 01")
    came = [0] * len(tool.last)
    while min(came) < 2:
        sample = tool.sampled(tool.wire.packet())
        came[tool.odts * sample.list + sample.odt] += 1


def one_long_list(tool):
    """A weighing gun's: all ODTs of the pool in one list, whose packets are all of the same weighing."""
    print("tool    wants one long list, as for a weighing gun")
    explain("list", "what the slave samples together, at one moment")
    explain("ODT", "what one packet of a list carries; short for object descriptor table")
    free(tool)
    allocate(tool, 1, POOL_ODTS)
    pour(tool)
    print("tool    sets it up and starts it: a packet of each ODT comes, all of one moment")
    sample = tool.sampled(tool.wire.packet())
    while sample.odt + 1 < POOL_ODTS:
        sample = tool.sampled(tool.wire.packet())
    print(f"slave      sample: list 0, packets 0 to {sample.odt}, each of weighing {sample.weighings}")


def eight_short_lists(tool):
    """A trough reader's: as many lists as there can be; one more is refused."""
    print("tool    wants eight short lists, as for a trough reader")
    free(tool)
    tool.show(f"wants {POOL_LISTS + 1} lists", f"D5 00 {POOL_LISTS + 1:02X} 00", PASSED, f"refused: the pool has {POOL_LISTS}")
    allocate(tool, POOL_LISTS, POOL_ODTS // POOL_LISTS)
    pour(tool)
    print("tool    sets them up and starts them: the line is full of samples from here on")


def write_unit(tool, unit):
    tool.ask(f"F6 00 00 00 {UNIT:02X} 00 00 00")
    tool.ask(f"F0 01 {unit:02X}")


def see_unit(tool, unit):
    """A sample that was taken after the write has the new unit."""
    while any(sample.unit != unit for sample in tool.last):
        tool.sampled(tool.wire.packet())


def read_unit(tool, unit):
    """Asks for the unit byte until the answer overtakes a sample of the event whose other samples went before it; shows that."""
    command = f"F4 01 00 00 {UNIT:02X} 00 00 00"
    for _ in range(ATTEMPTS):
        before = [tool.sampled(tool.wire.packet()) for _ in range(2)]
        tool.wire.send(bytes.fromhex(command))
        answer, between = tool.answer()
        after = tool.sampled(tool.wire.packet())
        if answer != bytes([0xFF, unit]):
            raise Wrong(f"the unit byte was read as {hexed(answer)}")
        if after.weighings == (before + between)[-1].weighings:
            show_overtaking(command, before, between[-2:], unit, after)
            return
    raise Wrong(f"no answer of {ATTEMPTS} overtook a sample")


def show_overtaking(command, before, between, unit, after):
    for sample in before:
        print(f"slave      sample: {sample}")
    words("tool", "asks for the unit byte", bytes.fromhex(command))
    for sample in between:
        print(f"slave      sample: {sample}")
    words("slave", "   ANSWERS", bytes([0xFF, unit]), UNITS[unit])
    print(f"slave      sample: {after}, overtaken by the answer")


def summing(data):
    """BUILD_CHECKSUM over so many bytes, and its answer if they are these."""
    return (f"F3 00 00 00 {hexed(len(data).to_bytes(4, 'little'))}",
            f"FF 02 00 00 {hexed((sum(data) % 65536).to_bytes(4, 'little'))}")


def load_table(tool):
    """The drug table: written, summed, read back; then one drug is corrected, and the old table put back. From the first
    packet to the last the gun has part of each, and must not be used."""
    found = b"".join(packet[1:] for packet in tool.read(DRUGS, len(TABLE)))
    sent = tool.write(DRUGS, TABLE)
    words("tool", f"loads the drug table, {len(TABLE)} bytes", sent[0], f"the first of {len(sent)} packets")
    words("slave", "   answers", b"\xff", "and so to each")
    tool.point(DRUGS)
    tool.show("asks for its checksum", *summing(TABLE), "as the tool has it")
    back = tool.read(DRUGS, len(TABLE))
    if b"".join(packet[1:] for packet in back) != TABLE:
        raise Wrong("the drug table reads back as another one")
    words("tool", "reads it back", bytes([0xF5, len(back[0]) - 1]), f"the first of {len(back)} packets")
    words("slave", "   answers", back[0], "byte for byte as it was sent")
    correct_drug(tool)
    tool.write(DRUGS, found)
    tool.point(DRUGS)
    tool.ask(*summing(found))
    print("tool    puts back the table that it found, and the checksum is that table's")


def correct_drug(tool):
    """One drug's doses, a tenth less each, at their own place; the others stay."""
    first = DRUG_SIZE * CORRECTED
    doses = [int.from_bytes(TABLE[at : at + 2], "little") - 1 for at in range(first, first + DRUG_SIZE, 2)]
    row = b"".join(dose.to_bytes(2, "little") for dose in doses)
    sent = tool.write(DRUGS + first, row)
    words("tool", f"corrects drug {CORRECTED}, in place", sent[0])
    tool.point(DRUGS)
    tool.ask(*summing(TABLE[:first] + row + TABLE[first + DRUG_SIZE :]))
    words("slave", "   answers", b"\xff", "the table's checksum is right again")


def exchange(tool):
    tool.wire.send_torn(bytes.fromhex(f"F4 01 00 00 {UNIT:02X} 00 00 00"))
    print("tool    is unplugged in the middle of a frame, and plugged in again")
    tool.connect()
    tool.show("points at the unit byte", f"F6 00 00 00 {UNIT:02X} 00 00 00")
    tool.show("writes 1, with the lock still on", "F0 01 01", LOCKED, "refused, locked")
    found = tool.read_found()
    other = 1 - found
    tool.unlock(CALIBRATION, LISTS)
    tool.unlock(LISTS, 0)
    print("tool    unlocks both resources, settings and lists, each by the key to a seed")
    explain("seed", "a number that the slave gives for this once, and from which the tool reckons the key")
    one_long_list(tool)
    eight_short_lists(tool)
    write_unit(tool, other)
    see_unit(tool, other)
    print(f"tool    writes {other}, {UNITS[other]}, and waits until the samples have it")
    read_unit(tool, other)
    tool.ask("DD 00")
    # Stopped lists drop what waits: nothing but answers comes now.
    tool.show("stops all lists, asks for status", "FD", "FF 00 00 00 00 00", "no list runs, nothing locked")
    write_unit(tool, found)
    print(f"tool    writes {found}, {UNITS[found]}, as it was")
    load_table(tool)
    tool.show("disconnects", "FE")
    # Without a session there is silence: what comes next is the answer to the next CONNECT.
    tool.wire.send(b"\xfd")
    tool.ask("FF 00", tool.connected)
    tool.ask("FE")


def write_dose(tool, expected, more=""):
    tool.ask(f"F6 00 00 00 {DOSE:02X} 00 00 00")
    tool.show(f"writes the dose, {OTHER_DOSE / 10} ml", f"F0 02 {OTHER_DOSE:02X} 00", expected, more)


def read_dose(tool, dose, more):
    tool.show("reads the dose", f"F4 02 00 00 {DOSE:02X} 00 00 00", f"FF {dose:02X} 00", f"{dose / 10} ml, {more}")


def try_keys(tool):
    """A script that has no key tries some, each in a session of its own, because a wrong one ends it."""
    print("script  is at the plug all night, and tries keys")
    for key, more in enumerate(["wrong, the session ends", "wrong, the session ends", "wrong: from now on it stays shut"]):
        tool.ask("FF 00", tool.connected)
        tool.seed(CALIBRATION)
        tool.show("connects, and tries a key", unlocking(key), LOCKED, more, who="script")


def find_shut(tool):
    """The right key is of no use without a seed; reading goes on."""
    tool.connect()
    tool.show("has the key, and wants a seed", f"F8 00 {CALIBRATION:02X}", LOCKED, f"refused: {SHUT}")
    write_dose(tool, LOCKED, "refused, locked")
    read_dose(tool, FIRST_DOSE, "as it was")


def find_open(tool):
    tool.connect()
    tool.unlock(CALIBRATION, LISTS)
    print("tool    gets a seed, and unlocks with its key")
    write_dose(tool, "FF")
    read_dose(tool, OTHER_DOSE, "written")
    tool.show("disconnects", "FE")


def find_kept(tool):
    tool.connect()
    read_dose(tool, OTHER_DOSE, "kept")
    tool.show("disconnects", "FE")


class Gun:
    """A host that is run for the tool, with a power switch. The host of board.c keeps its settings in a file that is named to
    it; one that makes no such file keeps nothing."""

    def __init__(self, host, kept):
        self.words, self.host, self.kept = host, None, kept

    def switch_on(self):
        """The name of its line, which the host prints alone, and an emulator with a sentence around it."""
        self.host = subprocess.Popen(self.words, stdin=subprocess.DEVNULL, stdout=subprocess.PIPE, text=True,
                                     env={**os.environ, "GUN_KEEPS": self.kept})
        ready, _, _ = select.select([self.host.stdout], [], [], PATIENCE)
        name = re.search(r"/dev/\S+", self.host.stdout.readline()) if ready else None
        if not name:
            raise Wrong("the host has not named its line")
        return name.group()

    def switch_off(self):
        if self.host:
            self.host.terminate()
            self.host.wait()
            self.host.stdout.close()


    def has_kept(self):
        """Whether it keeps settings; if so, waits until it has: it does that once the session has ended."""
        if not os.path.exists(self.kept):
            return False
        until = time.monotonic() + PATIENCE
        while os.path.getsize(self.kept) == 0:
            if time.monotonic() > until:
                raise Wrong("the host has not kept what was written")
            time.sleep(0.01)
        return True


def switch(tool, gun):
    gun.switch_off()
    tool.plug_in(gun.switch_on())
    print("gun     is switched off and on")


def talk_at_port(options):
    tool = Tool(options.port, options.baud, started=False)
    exchange(tool)
    return tool


def talk_to_host(options):
    with tempfile.TemporaryDirectory() as folder:
        gun = Gun(options.host, os.path.join(folder, "kept"))
        try:
            tool = Tool(gun.switch_on())
            exchange(tool)
            try_keys(tool)
            find_shut(tool)
            switch(tool, gun)
            find_open(tool)
            if gun.has_kept():
                switch(tool, gun)
                find_kept(tool)
        finally:
            gun.switch_off()
    return tool


def arguments():
    parser = argparse.ArgumentParser(description="A setting tool at the controller of host.c.")
    parser.add_argument("--port", metavar="DEVICE", help="the serial port that a controller is at")
    parser.add_argument("--baud", metavar="N", type=int, default=38400, help="the port's speed (38400)")
    parser.add_argument("host", nargs=argparse.REMAINDER, help="or the words that run a host here")
    options = parser.parse_args()
    if bool(options.port) == bool(options.host):
        parser.error("give a --port, or the words that run a host")
    return options


def main():
    options = arguments()
    try:
        tool = talk_at_port(options) if options.port else talk_to_host(options)
        print(f"\n{tool.answers} answers and {tool.samples} samples came, each as it should be.")
    except (Wrong, OSError) as why:
        print(f"tool: {why}", flush=True)
        sys.exit(1)


if __name__ == "__main__":
    main()
