"""docs/PORTING.md: the waits in milliseconds and the sizes in it, reckoned anew from the header, the host and the tests."""
import pathlib
import re
import sys

BITS = 10  # of a byte on the line: start, eight, stop
BAUDS = [9600, 38400, 115200]


class Checks:
    passed = failed = 0

    def same(self, what, right, said):
        self.passed, self.failed = self.passed + (right == said), self.failed + (right != said)
        if right != said:
            print(f"docs/PORTING.md: {what}: it says {said!r}, and {right!r} is right")


def text(name):
    return pathlib.Path(name).read_text(encoding="utf-8")


def number(pattern, where):
    """The one number of this form; thousands may have their comma."""
    found = set(re.findall(pattern, where))
    if len(found) != 1:
        sys.exit(f"{pattern} is found as {sorted(found)}\n0 passed, 1 failed")
    return int(found.pop().replace(",", ""))


def slots_of(what):
    """What is promised: an answer by the second slot, of L lists the next packet by 2L, a sample of p packets by 2Lp."""
    if what == "one frame":
        return 1
    if what == "an answer":
        return 2
    packets, lists = re.fullmatch(r"(?:the next packet|a whole sample of (\d+) packets), of (\d+) lists?", what).groups()
    return 2 * int(lists) * int(packets or 1)


def waits(c, porting, longest):
    table = porting[porting.index("| Wait for | Slots |"):].partition("\n\n")[0]
    head = table.partition("\n")[0]
    rows = re.findall(r"^\| ([^|]+) \| (\d+) \| ([\d.]+) \| ([\d.]+) \| ([\d.]+) \|$", table, re.M)
    c.same("the speeds", BAUDS, [int(baud.replace(",", "")) for baud in re.findall(r"([\d,]+) baud", head)])
    c.same("waits that the table has", True, len(rows) >= 7)
    for what, slots, *said in rows:
        c.same(f"slots of {what}", slots_of(what), int(slots))
        # Rounded up: a bound must not be said too low.
        right = [-(-slots_of(what) * longest * BITS * 10000 // baud) / 10 for baud in BAUDS]
        c.same(f"milliseconds of {what}", right, [float(one) for one in said])


def sizes(c, porting):
    header, host = text("include/xcp_slave.h"), text("examples/host.c")
    board = text("examples/board.h")
    state = number(r"#define XCP_STATE_SIZE (\d+)", header)
    c.same("the state", state, number(r"\| state \| (\d+) ", porting))
    c.same("the copy of it", state, number(r"\| a copy of the state \| (\d+) ", porting))
    c.same("the copy of it, in words", state, number(r"It takes ([\d,]+) bytes", porting))
    c.same("the ring", number(r"ring\[(\d+)\]", host), number(r"\| ring for received bytes \| (\d+) ", porting))
    drugs = number(r"DRUG_COUNT = (\d+)", board) * number(r"DRUG_SIZE = (\d+)", board)
    c.same("the two copies", 2 * (1 + drugs), number(r"\| two copies of what an interrupt reads \| (\d+) ", porting))
    room = number(r"#define XCP_SLOT_ROOM (\d+)", header)
    c.same("the room", [room, room], [number(r"\| room for a frame \| (\d+) ", porting), number(r"room of (\d+) is the", porting)])
    longest = number(r"longest frame\*\* has (\d+) bytes", porting)
    c.same("the longest frame: LEN is no pair", room - 1, longest)
    c.same("the longest frame, where waits are told", longest, number(r"of (\d+) bytes at most, ten bits", porting))
    return longest


def main():
    c = Checks()
    porting = text("docs/PORTING.md")
    waits(c, porting, sizes(c, porting))
    calls = number(r"^calls=(\d+)$", "\n".join(re.findall(r"^calls=\d+$", text("tests/controller.test"), re.M)))
    c.same("calls that are compared", calls, {"a million": 1000000}.get(re.search(r"(\S+ million) calls", porting).group(1)))
    for name in re.findall(r"`(\w+)`(?: and `(\w+)`)? in host\.c", porting):
        for one in filter(None, name):
            c.same(f"host.c has {one}", True, re.search(rf"\b{one}\(", text("examples/host.c")) is not None)
    print(f"{c.passed} passed, {c.failed} failed")
    sys.exit(c.failed > 0)


main()
