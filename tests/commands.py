"""docs/COMMANDS.md against the slave: every table of that page is read, and what it says is asked of the compiled archive.
Arguments: how to run compare/driver.c, the slave at the end of a pipe."""
import pathlib
import re
import sys

from driver import ROOM, SYNC, Slave, escaped, frame, little, plain

PAGE = "docs/COMMANDS.md"
HEX = {"mode", "extension", "length", "resource", "bit offset"}  # fields whose values the page has in hex; others are decimal
RESOURCES = {"calibration": 0x01, "lists": 0x04}
COUNTS = ["no", "one", "two", "three", "four", "five", "six"]
SHUT, NO_SEED = b"\xfe\x25", b"\xfe\x29"
SHOWING = ("F5", "F4", "FD", "E2", "DE", "DA")  # commands that show what another one has done
COUNTING = ("D5", "D4", "D3")  # commands whose last number is a count, and no list, ODT or entry
# Of the standard: the commands that are not optional, and the names of the error codes.
MANDATORY = {
    "FF": "CONNECT", "FE": "DISCONNECT", "FD": "GET_STATUS", "FC": "SYNCH", "F0": "DOWNLOAD", "EB": "SET_CAL_PAGE",
    "EA": "GET_CAL_PAGE", "E3": "CLEAR_DAQ_LIST", "E2": "SET_DAQ_PTR", "E1": "WRITE_DAQ", "E0": "SET_DAQ_LIST_MODE",
    "DF": "GET_DAQ_LIST_MODE", "DE": "START_STOP_DAQ_LIST", "DD": "START_STOP_SYNCH", "D2": "PROGRAM_START",
    "D1": "PROGRAM_CLEAR", "D0": "PROGRAM", "CF": "PROGRAM_RESET",
}
ERRORS = {
    "00": "ERR_CMD_SYNCH", "11": "ERR_DAQ_ACTIVE", "20": "ERR_CMD_UNKNOWN", "21": "ERR_CMD_SYNTAX", "22": "ERR_OUT_OF_RANGE",
    "23": "ERR_WRITE_PROTECTED", "24": "ERR_ACCESS_DENIED", "25": "ERR_ACCESS_LOCKED", "29": "ERR_SEQUENCE",
    "2A": "ERR_DAQ_CONFIG", "30": "ERR_MEMORY_OVERFLOW",
}


# The page.

class Page:
    """Its tables, by the heading above and the first column's name; each is a list of rows, the columns by name."""

    def __init__(self, text):
        self.text, self.tables, self.used, self.prose = text, {}, set(), {}
        heading, lines = None, text.splitlines()
        for i, line in enumerate(lines):
            if line.startswith("#"):
                heading = line.lstrip("# ")
            elif line.startswith("|---"):
                names = cells(lines[i - 1])
                rows = []
                for row in lines[i + 1 :]:
                    if not row.startswith("|"):
                        break
                    if len(cells(row)) != len(names):
                        sys.exit(f"{PAGE}: a row has other columns than its table: {row}\n0 passed, 1 failed")
                    rows.append(dict(zip(names, cells(row))))
                self.tables.setdefault((heading, names[0]), []).append(rows)
            elif not line.startswith("|"):
                self.prose[heading] = self.prose.get(heading, "") + line + " "

    def table(self, heading, first, which=0, of=1):
        """The table of that heading and first column, where there are so many of these."""
        self.used.add((heading, first))
        tables = self.tables[heading, first]
        if len(tables) != of:
            sys.exit(f"{PAGE}: under {heading} are {len(tables)} tables that begin with {first}, and not {of}\n0 passed, 1 failed")
        return tables[which]

    def commands(self):
        return [heading for heading, first in self.tables if first == "Check"]


def cells(line):
    return [cell.strip() for cell in line.strip().strip("|").split("|")]


def quoted(cell):
    return re.findall(r"`([^`]*)`", cell)


def spelled(words):
    """With AA*62 as so many bytes."""
    return re.sub(r"\b([0-9A-F]{2})\*(\d+)", lambda m: " ".join([m[1]] * int(m[2])), words)


def commands_of(quotation):
    """The commands of a quotation, of which some may be there many times."""
    parts = [re.fullmatch(r"(?:(\d+) times )?(.*)", part).groups() for part in quotation.split("; ")]
    return [spelled(command) for times, command in parts for _ in range(int(times or 1))]


def situations_of(page):
    """The commands of each situation, those of one that it goes on from first."""
    situations = {}
    for row in page.table("Command by command", "Situation"):
        before = row["Commands"].partition("`")[0].rstrip(", ")
        situations[row["Situation"]] = (situations[before] if before else []) + commands_of(quoted(row["Commands"])[0])
    return situations


def leading(cell):
    """The bytes that a cell begins with."""
    return bytes.fromhex(re.match(r"((?:[0-9A-F]{2} ?)*)", spelled(cell)).group(1))


# Its locks.

def key(seed, addend):
    x = (seed + addend) % 2**32
    return (x << 8 | x >> 24) % 2**32


def opening(slave, resource, addend, before=("FF 00",)):
    """Commands before, of which the last is CONNECT, and those that open one resource then."""
    get = f"F8 00 {resource:02X}"
    seed = int.from_bytes(slave.asked([*before, get])[-1][2:], "little")
    return [*before, get, "F7 04 " + little(key(seed, addend), 4).hex(" ")]


class Checks:
    passed = failed = 0

    def same(self, what, said, told):
        if said == told:
            self.passed += 1
        else:
            self.failed += 1
            print(f"{what}: {PAGE} has {said!r}, and {told!r} is right")


# The tables.

def the_wire(c, page, slave):
    rows = page.table("The wire", "Sent")
    sent = [bytes.fromhex("".join(quoted(row["Sent"]))) for row in rows]
    part = {}
    for row, wire in zip(rows, sent):
        part[row["Part"]] = part.get(row["Part"], b"") + plain(wire)
    message = part["LEN"] + part["CTR"] + part["packet"]
    c.same("SYNC", part["SYNC"], bytes([SYNC]))
    c.same("LEN", part["LEN"], bytes([len(part["packet"])]))
    c.same("checksum", part["checksum"], bytes([sum(message) % 256]))
    # As many commands before it as its CTR says, and then one that reads those bytes.
    values = part["packet"][1:]
    script = slave.power_up() + slave.measured(0, values) + slave.bytes(frame(b"\xff\0")) + slave.slot()
    script += (slave.bytes(frame(b"\xfc")) + slave.slot()) * (part["CTR"][0] - 1)
    script += slave.bytes(frame(bytes([0xF4, len(values), 0, 1, 0, 0, 0, 0]))) + slave.slot()
    c.same("the frame", b"".join(sent), slave.run(script)[-1][1])


def numbers(c, page, slave):
    rows = page.table("What a call returns", "No.")
    header = pathlib.Path("include/xcp_slave.h").read_text(encoding="ascii")
    named = re.findall(r"^ +(XCP_\w+) = (\d+),? ", header, re.M)
    c.same("numbers and names", [(row["Name"], row["No."]) for row in rows], named)
    for row in rows:
        number, shown = int(row["No."]), row["Shown by"]
        word, _, limit = shown.partition(" ")
        if quoted(shown):
            gave = slave.run(slave.power_up() + slave.bytes(bytes.fromhex(quoted(shown)[0])))
            c.same(f"number {number}", number, gave[-1][0])
            c.same(f"call of number {number}", row["Call"] in ("byte", "any"), True)
            continue
        # On one side of the limit it is this number, on the other it is not.
        limit = int(limit)
        told = {"event": f"above {limit - 1}", "room": f"fewer than {limit + 1} bytes", "state": "wrong size"}[word]
        c.same(f"number {number}, in words", told in row["When"], True)
        within, past = (limit, limit - 1) if word == "event" else (limit, limit + 1)
        makes = {"event": [slave.event], "room": [slave.slot], "state": every(slave)}[word]
        calls = [make(within) for make in makes] + [make(past) for make in makes]
        gave = [slave.run(slave.power_up() + call)[-1][0] for call in calls]
        half = len(calls) // 2
        c.same(f"number {number}", [number] * half, gave[:half])
        c.same(f"number {number} past its limit", number in gave[half:], False)
        c.same(f"call of number {number}", row["Call"], {"event": "event", "room": "slot", "state": "any"}[word])


def bad_bytes(c, page, slave):
    """The numbers in the words: which LEN is bad, and what may follow 9B."""
    said = {row["Name"]: (int(row["No."]), row["When"]) for row in page.table("What a call returns", "No.")}
    number, when = said["XCP_BAD_LENGTH"]
    least, most = map(int, re.search(r"LEN is (\d+) or above (\d+)", when).groups())
    for length in range(SYNC):
        gave = slave.run(slave.power_up() + slave.bytes([SYNC, length]))[-1][0]
        c.same(f"LEN {length} is bad", length <= least or length > most, gave == number)
    number, when = said["XCP_BAD_ESCAPE"]
    escape, *good = (int(byte, 16) for byte in re.findall(r"\b[0-9A-F]{2}\b", when))
    for byte in range(256):
        gave = slave.run(slave.power_up() + slave.bytes([SYNC, 1, escape, byte]))[-1][0]
        c.same(f"{escape:02X} {byte:02X} is bad", byte not in good, gave == number)


def lengths(c, page, slave):
    """How long packets are, each time that it is said, and so how many bytes an ODT can send."""
    most = int(re.search(r"A packet, 1 to (\d+) bytes", page.prose["The wire"])[1])
    connect = next(row["Answer"] for row in page.table("All commands", "Code", 0, 2) if row["Command"] == "CONNECT")
    c.same("packets of CONNECT's answer, in words", int(re.search(r"packets of up to (\d+) bytes", connect)[1]), most)
    answer = slave.asked(["FF 00"])[-1]
    c.same("packets of CONNECT's answer", [most, most], [answer[3], int.from_bytes(answer[4:6], "little")])
    c.same("LEN of the longest packet, and the next", [0, 3],
           [slave.run(slave.power_up() + slave.bytes([SYNC, length]))[-1][0] for length in (most, most + 1)])
    of_odts = r"(\d+) bytes in (?:its|the) first ODT (?:or|and) (\d+) in a later one"
    heading = "DE START_STOP_DAQ_LIST"
    told = page.prose[heading] + " ".join(row["Check"] for row in page.table(heading, "Check"))
    # Most, one too many, and most again; before them go the number and in the first ODT the clock.
    c.same("bytes of ODTs, in words", [tuple(map(int, pair)) for pair in re.findall(of_odts, told)],
           [(most - 3 + more, most - 1 + more) for more in (0, 1, 0)])


def every(slave):
    """Each kind of call, by the state's size."""
    return [lambda n: slave.power_up(state=n), lambda n: slave.bytes(b"\x9a", state=n),
            lambda n: slave.event(2, state=n) if n < slave.state else slave.event(0, state=n),
            lambda n: slave.slot(ROOM - 1 if n < slave.state else ROOM, state=n)]


def sizes(cell):
    """How many bytes a layout has."""
    return sum(int((re.search(r"\((\d)\)$", item) or [0, 1])[1]) for item in cell.split(", ")) if cell else 0


def all_commands(c, page, slave, opened, resource_of):
    rows = page.table("All commands", "Code", 0, 2)
    known = {int(row["Code"], 16) for row in rows}
    for code in range(256):
        answer = slave.asked(opened + [f"{code:02X} 00 00 00 00 00 00 00"])[-1]
        c.same(f"command {code:02X} is known", code in known, answer != b"\xfe\x20")
    c.same("commands with a section", [f"{row['Code']} {row['Command']}" for row in rows], page.commands())
    for row in rows:
        code, fewest, name = int(row["Code"], 16), int(row["Fewest"]), row["Command"]
        packet = bytes([code]) + bytes(fewest - 1)
        if fewest > 1:
            c.same(f"fewest bytes of {name}", b"\xfe\x21", slave.asked(["FF 00", packet[:-1].hex()])[-1])
        answer = slave.asked(["FF 00", packet.hex()])[-1]
        c.same(f"{name} of as many bytes", False, answer == b"\xfe\x21")
        c.same(f"lock of {name}", row["Lock"] != "-", answer == b"\xfe\x25")
        for lock, commands in resource_of.items():
            if row["Lock"] != "-":
                answer = slave.asked(commands + [packet.hex()])[-1]
                c.same(f"{name} with {lock} unlocked", row["Lock"] == lock, answer != b"\xfe\x25")
        section = page.table(f"{row['Code']} {name}", "Check")
        # Where data can be missing the fewest bytes are not all.
        missing = sum(check["Answer"] == "FE 21" for check in section) == 2
        c.same(f"layout of {name}", sizes(row["Bytes after the code"]) + 1 > fewest, missing)
        if not missing:
            c.same(f"layout of {name}, bytes", sizes(row["Bytes after the code"]) + 1, fewest)
        goods = [check["Answer"] for check in section if re.fullmatch(r"good\b[^:]*(: the ODTs .*|: nothing .*)?", check["Check"])]
        c.same(f"answer of {name}", all(leading(g).startswith(leading(row["Answer"])[:1]) for g in goods), bool(goods))
        if len(leading(row["Answer"])) > 2:
            c.same(f"whole answer of {name}", leading(row["Answer"]), leading(goods[0])[: len(leading(row["Answer"]))])


def not_there(c, page, slave, opened):
    """The mandatory codes that are answered as unknown, and no other one."""
    known = {row["Code"]: row["Command"] for row in page.table("All commands", "Code", 0, 2)}
    rows = page.table("All commands", "Code", 1, 2)
    c.same("mandatory commands that are not there", {row["Code"]: row["Command"] for row in rows},
           {code: name for code, name in MANDATORY.items() if code not in known})
    there = [name for code, name in MANDATORY.items() if code in known]
    prose = page.prose["All commands"].partition("The other mandatory ones are there:")[2].partition(". ")[0]
    c.same("mandatory commands that are there, in words", re.findall(r"[A-Z_]{5,}", prose), there)
    c.same("their names in the table", [known[code] for code in MANDATORY if code in known], there)
    for code in (row["Code"] for row in rows):
        for packet in (code, code + " 00" * 7, code + " FF" * 63):
            c.same(f"answer to {packet}", slave.asked(opened + [packet])[-1], b"\xfe\x20")


def no_answer(c, page, slave, situations):
    """What a tool hears after a loss."""
    for row in page.table("When no answer comes", "Lost"):
        situation, _, tried = row["In, and sent"].partition(" ")
        *before, last = commands_of(quoted(tried)[0])
        packet = frame(bytes.fromhex(last))
        lost = row["Lost"].partition(":")[0]
        # What becomes of the last command; a late answer waits on.
        fate = {"the command": b"", "its answer": slave.bytes(packet) + slave.slot(), "nothing": slave.bytes(packet),
                "the power": slave.bytes(packet) + slave.slot() + slave.power_up()}[lost]
        script = slave.power_up() + slave.exchanges(situations[situation] + before) + fate
        heard = []
        for command in commands_of(quoted(row["Then"])[0]):
            script += slave.exchanges([command])
            sent = slave.run(script)[-1][1]
            heard.append(plain(sent[1:])[2:-1].hex(" ").upper() if sent else "-")
        c.same(f"lost: {row['Lost']}", quoted(row["Heard"])[0].split("; "), heard)
    prose = page.prose["When no answer comes"]
    told = re.search(r"(\w+) frames of at most (\d+) bytes.* That is (\d+) ms at ([\d,]+) baud", prose)
    frames, longest, wait, baud = told.groups()
    # A byte is ten bits on the line.
    c.same("time of an answer", int(wait), round(COUNTS.index(frames) * int(longest) * 10_000 / int(baud.replace(",", ""))))
    messages = (bytes([64, SYNC]) + bytes([SYNC] * n) + bytes([SYNC + 1] * (64 - n)) for n in range(65))
    c.same("the longest frame", int(longest), max(1 + len(escaped(m + bytes([sum(m) % 256]))) for m in messages))
    described = pathlib.Path("docs/controller.a2l").read_text(encoding="ascii")
    c.same("time-outs of docs/controller.a2l, a second each", set(re.search(r"((?:\d+ ){7}) +/\* time-outs", described)[1].split()),
           {"1000"})


def follows(codes, order):
    """Whether the codes come in that order; two rows of one check may stand one behind the other."""
    rest = iter(order)
    return all(code in rest for i, code in enumerate(codes) if i == 0 or code != codes[i - 1])


def arrived(name, command, answer):
    """Whether a command of a situation is answered as it should be: done, or a wrong key."""
    wrong = name == "shut" and command.startswith("F7")
    return answer == SHUT if wrong else answer is not None and answer[0] == 0xFF


def sections(c, page, slave, situations):
    order = [row["Code"] for row in page.table("What can be wrong", "Code")]
    names = {row["Code"]: row["Name"] for row in page.table("What can be wrong", "Code")}
    c.same("names of error codes", names, ERRORS)
    for name, commands in situations.items():
        came = [arrived(name, *exchange) for exchange in zip(commands, slave.asked(commands))]
        c.same(f"situation {name}", [True] * len(commands), came)
    shown = {"20"}  # of codes that have no section
    for heading in page.commands():
        rows = page.table(heading, "Check")
        refusals = [row for row in rows if row["Answer"].startswith("FE") and not row["Check"].startswith("good")]
        # A wrong key is judged when all else is right.
        codes = [row["Answer"].split()[1] for row in refusals if "session ends" not in row["Check"]]
        c.same(f"order of {heading}'s checks", follows(codes, order), True)
        shown.update(row["Answer"].split()[1] for row in rows if row["Answer"].startswith("FE"))
        for row in rows:
            situation, _, tried = row["Shown by"].partition(" ")
            for commands in quoted(tried):
                sent = commands_of(commands)
                c.same(f"{heading}, {row['Check']}: the last command", sent[-1][:2] in (heading[:2], *SHOWING), True)
                answers = slave.asked(situations[situation] + sent)
                c.same(f"{heading}, {row['Check']}: `{commands}`", spelled(row["Answer"]), (answers[-1] or b"").hex(" ").upper())
            if "session ends" in row["Check"]:
                c.same(f"{heading}, {row['Check']}", slave.asked(situations[situation] + sent + ["FD"])[-1], None)
        fewest = re.findall(r"^fewer than (\d+) bytes$", rows[0]["Check"])
        stated = next(row["Fewest"] for row in page.table("All commands", "Code", 0, 2) if heading.startswith(row["Code"]))
        c.same(f"{heading}, fewest bytes", fewest or ["1"], [stated])
    c.same("codes that are shown", set(order), shown)


def fields(layout):
    """Where each field of a command lies: its place and its size."""
    places, at = {}, 1
    for item in layout.split(", "):
        name, size = re.fullmatch(r"(.*?)(?: \((\d)\))?", item).groups()
        places[name] = at, int(size or 1)
        at += int(size or 1)
    return places


def value(field, word):
    return int(word, 16) if field in HEX else int(word.replace(",", ""))


def bounds(check):
    """What a check's words say of fields: the field, values that it refuses, and values that it lets pass."""
    for field, *ends in re.findall(r"(\w+) is not (\w+) to (\w+)", check):
        low, high = (value(field, end) for end in ends)
        yield field, [low - 1, high + 1], [low, high]
    for field, word in re.findall(r"(bit offset|\w+)(?: is)? not (\w+)(?! to|\w)", check):
        only = value(field, word)
        yield field, [(only + 1) % 256, (only - 1) % 256], [only]
    for field, word in re.findall(r"(\w+)(?: is 0 or)? above ([\w,]*\w)", check):
        most = value(field, word)
        yield field, [most + 1], [most]
    for field, word in re.findall(r"^(\w+) is (\d+)(?: or|$)", check):
        yield field, [value(field, word)], []


def tried(packet, place, number):
    at, size = place
    return (packet[:at] + little(number, size) + packet[at + size :]).hex()


def worded(c, page, slave, situations):
    """The numbers in the words of a check: a good command with just that field changed is refused, or not."""
    for summary in page.table("All commands", "Code", 0, 2):
        heading = f"{summary['Code']} {summary['Command']}"
        rows = page.table(heading, "Check")
        goods = [(row["Shown by"].split()[0], commands_of(quoted(row["Shown by"])[0])) for row in rows if row["Check"].startswith("good")]
        situation, commands = next(good for good in goods if good[1][-1].startswith(summary["Code"]))
        before, packet = situations[situation] + commands[:-1], bytes.fromhex(commands[-1])
        places = fields(summary["Bytes after the code"])
        for i, row in enumerate(rows):
            check, answer = row["Check"], leading(row["Answer"])
            for field, refused, let in bounds(check) if answer[0] == 0xFE else ():
                for number in refused + let:
                    told = slave.asked(before + [tried(packet, places[field], number)])[-1]
                    c.same(f"{heading}, {check}: {field} {number:X}", number in refused, told == answer)
            for fewest in re.findall(r"^fewer than (\d+) bytes", check):
                # A later check may answer the same: then this one is passed all the same.
                same = any(later["Answer"] == row["Answer"] for later in rows[i + 1 :])
                cut = [slave.asked(before + [packet[:n].hex()])[-1] for n in (int(fewest) - 1, int(fewest))]
                c.same(f"{heading}, {check}", [True, same], [told == answer for told in cut])


def limits(c, page, slave, situations):
    for row in page.table("Memories, lists, samples", "What"):
        (last,), (none,) = quoted(row["The last one"]), quoted(row["None any more"])
        a, b = bytes.fromhex(last), bytes.fromhex(none)
        places = [i for i in range(len(a)) if a[i] != b[i]]
        part, most = slice(places[0], places[-1] + 1), int(row["Are"]) - (last[:2] not in COUNTING)
        c.same(f"{row['What']}: the numbers tried", [most, most + 1],
               [int.from_bytes(a[part], "little"), int.from_bytes(b[part], "little")])
        answers = [slave.asked(situations[row["In"]] + [command])[-1] for command in (last, none)]
        c.same(f"{row['What']}: {row['Are']}", [0xFF, 0xFE], [answer[0] for answer in answers])
    pool = [row["Are"] for row in page.table("Memories, lists, samples", "What") if row["What"].endswith("in the pool")]
    passed = next(row["Means"] for row in page.table("What can be wrong", "Code") if row["Code"] == "30")
    c.same("the pool, in words", list(re.search(r"(\d+) lists, (\d+) ODTs, (\d+) entries", passed).groups()), pool)
    return list(map(int, pool))


def sample(c, page, slave, situations):
    number, clock, values = (bytes.fromhex("".join(quoted(row["Sent"]))) for row in page.table("Memories, lists, samples", "Sent"))
    listed = re.search(r"list (\d), ODT (\d)", page.table("Memories, lists, samples", "Sent")[0]["Is"])
    told = re.search(r"In the situation \"(\w+)\", where list 0 has (\w+) ODTs, list (\d) with one entry of two measured bytes, "
                     r"([0-9A-F ]+), at clock 0x(\w{4})", page.prose["Memories, lists, samples"])
    before, which = situations[told[1]], int(told[3])
    prepare = [f"E2 00 {which:02X} 00 00 00", f"E1 FF {len(values):02X} 01 40 00 00 00",
               f"E0 10 {which:02X} 00 00 00 01 00", f"DE 01 {which:02X} 00"]
    script = slave.power_up() + slave.measured(0x40, values) + slave.exchanges(before + prepare)
    script += slave.event(0, int.from_bytes(clock, "little")) + slave.slot()
    c.same("the packet's number", [COUNTS.index(told[2]), slave.asked(before + prepare)[-1]], [number[0], b"\xff" + number])
    c.same("the sample, in words", [int(listed[1]), int(listed[2]), bytes.fromhex(told[4]), int(told[5], 16)],
           [which, 0, values, int.from_bytes(clock, "little")])
    c.same("the sample", number + clock + values, plain(slave.run(script)[-1][1][1:])[2:-1])


def sampling(lists, packets):
    """Commands after FREE_DAQ: so many lists of so many packets, a byte each, that run on event 0."""
    odts = [(which, odt) for which in range(lists) for odt in range(packets)]
    return [f"D5 00 {lists:02X} 00", *(f"D4 00 {which:02X} 00 {packets:02X}" for which in range(lists)),
            *(f"D3 00 {which:02X} 00 {odt:02X} 01" for which, odt in odts),
            *(command for which, odt in odts for command in (f"E2 00 {which:02X} 00 {odt:02X} 00", "E1 FF 01 00 00 00 00 00")),
            *(f"{command} {which:02X} 00{rest}" for which in range(lists)
              for command, rest in (("E0 10", " 00 00 01 00"), ("DE 01", "")))]


def turns(c, page, slave, freed, pool):
    """With answers coming all the time: by which slot a list's next packet has left, and a sample whole."""
    prose = page.prose["Memories, lists, samples"]
    each, whole = map(int, re.search(r"next packet by slot (\d)L, and a sample of p packets whole by slot (\d)Lp", prose).groups())
    for lists in range(1, pool[0] + 1):
        packets = pool[1] // lists
        # After a first sample, all of it sent, the last frame is the last list's. Then two slots after each SYNCH.
        before = slave.power_up() + slave.exchanges(freed + sampling(lists, packets)) + slave.event(0)
        before += slave.slot() * (lists * packets) + slave.event(0)
        asking = slave.bytes(frame(b"\xfc")) + slave.slot() * 2
        calls = slave.run(before + asking * (lists * packets))[len(slave.run(before)):]
        sent = [plain(wire[1:])[2:-1] for _, wire in calls if wire]
        left = [[i + 1 for i, packet in enumerate(sent) if packet[0] // packets == which] for which in range(lists)]
        apart = [later - earlier for slots in left for earlier, later in zip([0, *slots], slots)]
        c.same(f"slots to the next packet of {lists} lists", each * lists, max(apart))
        c.same(f"slots of a sample of {packets} packets, of {lists} lists", whole * lists * packets, max(map(max, left)))


def seeds(c, page, slave):
    rows = page.table("Seed and key", "Step")
    said = {row["Step"]: row["Gives"] for row in rows}
    value = start = int(said["start number"], 16)
    addends = []
    for step, gives in said.items():
        shift = re.search(r"shifted (left|right) by (\d+)", step)
        if shift:
            by = int(shift[2])
            value ^= (value << by) % 2**32 if shift[1] == "left" else value >> by
        if step.startswith("plus"):
            addends = [int(number, 16) for number in re.findall(r"0x[0-9A-F]{8}", step)]
            value = (value + addends[0]) % 2**32
        turn = re.match(r"rotated left by (\d+)", step)
        if turn:
            value = (value << int(turn[1]) | value >> 32 - int(turn[1])) % 2**32
        if gives.startswith("0x"):
            c.same(f"seed and key, {step}", int(gives, 16), value)
    (answer,), (unlock,) = quoted(said["the answer to GET_SEED"]), quoted(said["UNLOCK"])
    told = slave.asked(["FF 00", "F8 00 01", unlock], start)
    c.same("the answer to GET_SEED", answer, told[1].hex(" ").upper())
    c.same("UNLOCK's key", unlock, "F7 04 " + little(value, 4).hex(" ").upper())
    c.same("what UNLOCK opens", told[2], b"\xff\x04")
    default = int(re.search(r"\(0 becomes (0x[0-9A-F]{8})\)", page.prose["Seed and key"])[1], 16)
    c.same("start 0", slave.asked(["FF 00", "F8 00 01"], default), slave.asked(["FF 00", "F8 00 01"], 0))
    c.same("numbers for keys", len(addends), len(RESOURCES))
    return dict(zip(RESOURCES, addends))


def wrong_keys(c, page, slave, situations, addends):
    """How many wrong keys it takes until it stays shut, and that nothing but a power-up clears their count."""
    told = re.findall(r"(\w+)\s+(?:wrong\s+keys|keys\s+were\s+wrong)", page.text)
    most = COUNTS.index(told[0])
    c.same("how many keys may be wrong, each time that it is said", set(told), {COUNTS[most]})
    c.same("wrong keys of the situation shut", sum(command.startswith("F7") for command in situations["shut"]), most)
    codes = list(RESOURCES.values())
    wrong = [[f"F8 00 {code:02X}", "F7 04 00 00 00 00", "FF 00"] for code in codes * most]
    for n in range(most + 2):
        commands = ["FF 00", *sum(wrong[:n], [])]
        for code in codes:
            c.same(f"GET_SEED for {code:02X} is refused after {n} wrong keys", n >= most,
                   slave.asked(commands + [f"F8 00 {code:02X}"])[-1] == SHUT)
    before = ["FF 00", *sum(wrong[: most - 1], [])]
    for name, code in RESOURCES.items():
        # A right key, an end and a new session before the last one: none of them clears the count.
        between = opening(slave, code, addends[name], before) + ["FE", "FF 00"]
        answers = slave.asked(between + wrong[0] + ["F8 00 01", "F8 00", "F7 04 00 00 00 00", "FD"])
        c.same(f"a right key for {name} after {most - 1} wrong ones", answers[len(between) - 3][0], 0xFF)
        c.same(f"one more after it, and {name} is shut", answers[-4:], [SHUT, b"\xfe\x21", NO_SEED, b"\xff\0\x05\0\0\0"])
    for state, shut in ((slave.state, False), (slave.state - 1, True)):
        script = slave.power_up() + slave.exchanges(situations["shut"])
        script += slave.power_up(state=state) + slave.exchanges(["FF 00", "F8 00 01"])
        c.same(f"shut after a power-up lent {state} bytes", plain(slave.run(script)[-1][1][1:])[2:-1] == SHUT, shut)


def words(c, page):
    """The words of the code are in it."""
    sources = [*pathlib.Path("crates").glob("*/src/*.rt"), *pathlib.Path("crates").glob("*/specs/*.antt")]
    text = " ".join(path.read_text(encoding="utf-8") for path in sources)
    ours, standard = (page.table("Words", "Word", which, 3) for which in (0, 2))
    for row in ours:
        c.same(f"the word {row['Word']}", bool(re.search(rf"\b{row['Word']}\w*", text, re.I)), True)
    c.same("words of XCP", {"DAQ list, list", "ODT", "MTA", "CTO", "DTO"} <= {row["Word"] for row in standard}, True)


def main():
    page = Page(pathlib.Path(PAGE).read_text(encoding="utf-8"))
    c, slave = Checks(), Slave(sys.argv[1:])
    the_wire(c, page, slave)
    numbers(c, page, slave)
    bad_bytes(c, page, slave)
    lengths(c, page, slave)
    addends = seeds(c, page, slave)
    resource_of = {name: opening(slave, code, addends[name]) for name, code in RESOURCES.items()}
    situations = situations_of(page)
    opened = situations["open"]
    all_commands(c, page, slave, opened, resource_of)
    not_there(c, page, slave, opened)
    no_answer(c, page, slave, situations)
    sections(c, page, slave, situations)
    worded(c, page, slave, situations)
    pool = limits(c, page, slave, situations)
    sample(c, page, slave, situations)
    turns(c, page, slave, situations["freed"], pool)
    wrong_keys(c, page, slave, situations, addends)
    words(c, page)
    c.same("tables that nothing here reads", sorted(set(page.tables) - page.used), [])
    slave.end.stdin.close()
    c.same("how the driver ended", slave.end.wait(), 0)
    print(f"{c.passed} passed, {c.failed} failed")
    sys.exit(c.failed > 0)


main()
