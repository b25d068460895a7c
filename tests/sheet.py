"""The sheet program's verdicts. Each list of expected bytes on the stored sheet is changed in its last byte, one at a time, and
the program must say so; and it must refuse a sheet that is wrong, with the line, the column and what is wrong there.
Arguments: the sheet, how to run the program, and how to run it with a status."""
import random
import re
import subprocess
import sys

# Where a step's line has its bytes; after an = sign stand those to expect.
BYTES = 30
# The longest packet, and the longest frame.
MOST, ROOM = 64, 135
LIST = r"(?:[0-9A-F]{2} ?)+"
END = "Every case                    "


def run(sheet):
    done = subprocess.run(sys.argv[2].split(), input=sheet, capture_output=True, check=True)
    return done.stdout.decode("latin-1"), done.stderr.decode("latin-1")


def status(sheet):
    """How it ends with a status, and that it prints the same so."""
    done = subprocess.run(sys.argv[3].split(), input=sheet, capture_output=True, check=False)
    same = (done.stdout.decode("latin-1"), done.stderr.decode("latin-1")) == run(sheet)
    return done.returncode if same else "other output"


def changed(line):
    """The line with another last byte in each of its lists to expect."""
    if len(line) <= BYTES or line[0] not in "><UERWS" or line[1] != " ":
        return
    # A slot's line expects its first list too.
    pattern = LIST if line[0] == "<" else "= " + LIST
    for m in re.compile(pattern).finditer(line, BYTES):
        end = len(m.group().rstrip()) + m.start()
        byte = int(line[end - 2 : end], 16)
        yield f"{line[: end - 2]}{byte ^ 1:02X}{line[end:]}"


def step(letter, rest, name="a step"):
    return f"{letter} {name:<28}{rest}"


def some(count, byte="00"):
    return " ".join([byte] * count)


TITLE = "# a case"
GOOD = step("P", "01 00 00 00")
CONNECT = step(">", "FF 00 = 9A 02 00 FF 00 01")
ANSWER = step("<", "FF 05 00 40 40 00 01 01")

# SHORT_UPLOAD of all that an answer can have, where each byte is a SYNC, and the frame of the answer.
SESSION = "\n".join([TITLE, GOOD, CONNECT, ANSWER, step("M", "00 00 " + some(MOST - 1, "9A"))]) + "\n"
UPLOAD = "F4 3F 00 01 00 00 00 00"
PAIRS = "FF " + some(MOST - 1, "9A")
FRAMED = " = 9A 40 01 FF " + some(MOST - 1, "9B 01") + " 26"

# A line that is wrong, behind a title and a good step: its name, the line, the column, and words of what is said.
LINES = [
    ("a letter of no step", step("X", "FF 00"), 1, "neither a step"),
    ("a small letter for a step", step("p", "01 00 00 00"), 1, "neither a step"),
    ("words without a sign", "Case 1: CONNECT", 1, "neither a step"),
    ("a letter without a space", "PP" + GOOD[2:], 1, "neither a step"),
    ("a title's sign without a space", "#a case", 1, "neither a step"),
    ("a title's sign alone", "#", 1, "neither a step"),
    ("a space alone", " ", 1, "neither a step"),
    ("a space before a step", " " + GOOD, 1, "neither a step"),
    ("a tab for a space", GOOD.replace(" ", "\t", 1), 2, "printable"),
    ("a tab before the bytes", f"P power-up\t{'01 00 00 00'}", 11, "printable"),
    ("a tab between bytes", step(">", "FF\t00"), 33, "printable"),
    ("a carriage return that ends no line", GOOD[:20] + "\r" + GOOD[20:], 21, "printable"),
    ("a carriage return before a line's ending", GOOD + "\r\r", 42, "printable"),
    ("a carriage return alone before it", "\r\r", 1, "printable"),
    ("an umlaut in a name", step("P", "01 00 00 00", "f\xfcr"), 4, "printable"),
    ("a zero byte", step(">", "FF 00\0"), 36, "printable"),
    ("a step without bytes", "> CONNECT", 30, "name ends here"),
    ("a step without a name", "> ", 30, "name ends here"),
    ("a name of 28 letters", step(">", "FF 00", "N" * 28), 30, "name ends here"),
    ("bytes a column early", f"> {'a step':<27}FF 00", 30, "name ends here"),
    ("bytes a column late", step(">", " FF 00"), 31, "not used"),
    ("a name's end in the bytes", "> a name that is longer than 28 columns FF 00", 30, "name ends here"),
    ("bytes that are missing", step(">", ""), 31, "not used"),
    ("a small hex letter", step(">", "ff 00"), 31, "not used"),
    ("a small hex letter later", step(">", "FF 0a"), 33, "not used"),
    ("one digit", step(">", "FF 0"), 33, "not used"),
    ("three digits", step(">", "FF 000"), 36, "not used"),
    ("no space between", step(">", "FF00"), 33, "not used"),
    ("two spaces between", step(">", "FF  00"), 33, "not used"),
    ("a space at the end", step(">", "FF 00 "), 36, "not used"),
    ("a comma", step(">", "FF, 00"), 33, "not used"),
    ("a word behind the bytes", step(">", "FF 00 CONNECT"), 36, "not used"),
    ("small letters to expect", step(">", "FF 00 = 9a 02 00 FF 00 01"), 39, "not used"),
    ("a small letter to expect, later", step("<", "FF = 9A 0a"), 38, "not used"),
    ("no space behind the sign", step(">", "FF 00 =9A 02 00 FF 00 01"), 36, "not used"),
    ("no space before the sign", step(">", "FF 00= 9A 02 00 FF 00 01"), 36, "not used"),
    ("a sign with nothing behind it", step(">", "FF 00 ="), 36, "not used"),
    ("a sign with a space behind it", step(">", "FF 00 = "), 39, "not used"),
    ("two signs", step(">", "FF 00 = 9A = 9A"), 41, "not used"),
    ("a sign for the bytes", step(">", "= 9A"), 31, "not used"),
    ("more bytes than a frame has", step("W", some(ROOM + 1)), BYTES + 3 * ROOM, f"one space between, at most {ROOM}, with"),
    ("more of them to expect", step(">", "FF 00 = " + some(ROOM + 1)), BYTES + 8 + 3 * ROOM, "not used"),
    ("a - for a command", step(">", "-"), 31, "not used"),
    ("a - and bytes", step("<", "- FF"), 32, "not used"),
    ("a power-up of 3 bytes", step("P", "01 00 00"), 31, "P takes"),
    ("a power-up of 5 bytes", step("P", "01 00 00 00 00"), 31, "P takes"),
    ("a power-up that expects", step("P", "01 00 00 00 = 00"), 43, "P takes"),
    ("measured bytes, none of them", step("M", "00 00"), 31, "M takes"),
    ("a measured byte at 4,096", step("M", "00 10 01"), 31, "M takes"),
    ("measured bytes over the end", step("M", "FF 0F 01 02"), 31, "M takes"),
    ("measured bytes that expect", step("M", "00 00 01 = 01"), 40, "M takes"),
    ("wire bytes without numbers", step("W", "9A 01"), 37, "W takes"),
    ("wire bytes with too few numbers", step("W", "9A 01 = 00"), 37, "W takes"),
    ("wire bytes with too many numbers", step("W", "9A 01 = 00 00 00"), 37, "W takes"),
    ("a slice without its number", step("S", "9A 01"), 37, "S takes"),
    ("a slice without a count", step("S", "9A 01 = 00"), 37, "S takes"),
    ("a slice with a third number", step("S", "9A 01 = 00 02 00"), 37, "S takes"),
    ("a - for a slice", step("S", "- = 00 00"), 31, "not used"),
    ("a command that is too long", step(">", some(MOST + 1)), 31, f"> takes a command of 1 to {MOST} bytes\n"),
    ("a packet that is too long", step("<", some(MOST + 1)), 31, f"< takes a packet of 1 to {MOST} bytes, or - alone\n"),
    ("a frame of nothing", step("<", "- = 9A 01 00 FF 00"), 31, "< takes"),
    ("UNLOCK of another resource", step("U", "02 = 00 7F F0 04"), 31, "U takes"),
    ("UNLOCK of two resources", step("U", "01 04 = 00 7F F0 04"), 31, "U takes"),
    ("UNLOCK without a key", step("U", "01"), 34, "U takes"),
    ("UNLOCK with a key of 3", step("U", "01 = 00 7F F0"), 34, "U takes"),
    ("a repeat of 0", step("R", "00 FC = FE 00"), 31, "R takes"),
    ("a repeat of nothing", step("R", "02 = FE 00"), 31, "R takes"),
    ("a repeat that is too long", step("R", f"02 {some(MOST + 1)} = FE 00"), 31, f"a command of 1 to {MOST} bytes, and"),
    ("a repeat without an answer", step("R", "02 FC"), 37, "R takes"),
    ("a repeat, its answer too long", step("R", "02 FC = " + some(MOST + 1)), 37, f"to expect, of 1 to {MOST} bytes\n"),
    ("an event without its clock", step("E", "00 = 00 00"), 31, "E takes"),
    ("an event of 4 bytes", step("E", "00 00 00 00 = 00 00"), 31, "E takes"),
    ("an event without counts", step("E", "00 00 00"), 40, "E takes"),
    ("an event with three counts", step("E", "00 00 00 = 00 00 00"), 40, "E takes"),
    ("a title inside a case", TITLE, 1, "a title inside a case"),
]

# Whole sheets that are wrong: the name, the sheet, and what standard error has.
SHEETS = [
    ("an empty sheet", "", "sheet: it has no step\n"),
    ("a sheet of empty lines", "\n\n\n", "sheet: it has no step\n"),
    ("a title alone", f"{TITLE}\n", "sheet: line 1, column 1: a case without a step\n"),
    ("a case without a step", f"{TITLE}\n\n{TITLE}\n{GOOD}\n", "sheet: line 1, column 1: a case without a step\n"),
    ("a later case without a step", f"{TITLE}\n{GOOD}\n\n\n{TITLE}\n\n", "sheet: line 5, column 1: a case without a step\n"),
    ("a case of two titles", f"{TITLE}\n{TITLE}\n{GOOD}\n", "sheet: line 1, column 1: a case without a step\n"),
    ("a step outside a case", f"{GOOD}\n", "sheet: line 1, column 1: a step outside a case: a case begins with a title (# and a space)\n"),
    ("a step behind a case", f"{TITLE}\n{GOOD}\n\n{GOOD}\n",
     "sheet: line 4, column 1: a step outside a case: a case begins with a title (# and a space)\n"),
    ("a carriage return at the sheet's end", f"{TITLE}\n{GOOD}\r",
     "sheet: line 2, column 42: only printable ASCII can stand in a sheet, no tab, and no carriage return but before a line feed\n"),
    ("65,536 bytes", f"{TITLE}\n{GOOD}\n".ljust(65536, "\n"), "sheet: it has more than 65,535 bytes and was not run\n"),
]

# Sheets that are right: the name, the sheet, and its last line.
RIGHT = [
    ("one step", f"{TITLE}\n{GOOD}\n", "as expected: 1 case, 1 step"),
    ("no line feed at the end", f"{TITLE}\n{GOOD}", "as expected: 1 case, 1 step"),
    ("empty lines before, between and behind", f"\n{TITLE}\n{GOOD}\n{CONNECT}\n\n\n{TITLE}\n{ANSWER}\n\n\n", "as expected: 2 cases, 3 steps"),
    ("lines that end in CR LF", f"\r\n{TITLE}\r\n{GOOD}\r\n{CONNECT}\r\n\r\n\r\n{TITLE}\r\n{ANSWER}\r\n", "as expected: 2 cases, 3 steps"),
    ("CR LF at some lines, and none at the end", f"{TITLE}\r\n{GOOD}\n{CONNECT}\r\n\n{TITLE}\n{ANSWER}", "as expected: 2 cases, 3 steps"),
    ("an event that is refused", f"{TITLE}\n{GOOD}\n{step('E', '02 00 00 = 08')}\n", "as expected: 1 case, 2 steps"),
    ("the longest line", f"{TITLE}\n{GOOD}\n{step('W', some(ROOM) + ' = ' + some(ROOM))}\n", "as expected: 1 case, 2 steps"),
    ("the longest slice", f"{TITLE}\n{GOOD}\n{step('S', some(ROOM) + f' = 00 {ROOM:02X}')}\n", "as expected: 1 case, 2 steps"),
    ("a slice before the power-up", f"{TITLE}\n{step('S', '9A 01 = 0A 00')}\n", "as expected: 1 case, 1 step"),
    ("the longest command", f"{TITLE}\n{GOOD}\n{step('>', some(MOST, '9A') + ' = 9A 40 00 ' + some(MOST, '9B 01') + ' C0')}\n",
     "as expected: 1 case, 2 steps"),
    ("the longest answer", f"{SESSION}{step('>', UPLOAD)}\n{step('<', PAIRS + FRAMED)}\n", "as expected: 1 case, 6 steps"),
    ("the longest repeat", f"{SESSION}{step('R', f'FF {UPLOAD} {some(56)} = {PAIRS}')}\n", "as expected: 1 case, 5 steps"),
    ("the most measured bytes", f"{TITLE}\n{GOOD}\n{step('M', '00 00 ' + some(ROOM - 2))}\n", "as expected: 1 case, 2 steps"),
    ("a measured byte at 4,095", f"{TITLE}\n{GOOD}\n{step('M', 'FF 0F 01')}\n", "as expected: 1 case, 2 steps"),
    ("one case of two that differs", f"{TITLE}\n{GOOD}\n{CONNECT}\n{ANSWER}\n\n{TITLE}\n{step('<', 'FF')}\n",
     "DIFFERENT: 1 of 2 cases, 4 steps"),
    ("a - where something waits", f"{TITLE}\n{GOOD}\n{CONNECT}\n{step('<', '-')}\n", "DIFFERENT: 1 of 1 case, 3 steps"),
]


class Checks:
    passed = failed = 0

    def holds(self, good, what, told):
        self.passed, self.failed = self.passed + good, self.failed + (not good)
        if not good:
            print(f"not said as it should be: {what}: {told!r}")


def expectations(c, lines):
    out, told = run("\n".join(lines).encode())
    cases = sum(line.startswith("# ") for line in lines)
    steps = sum(line != "" for line in lines) - cases
    good = out.endswith(f"\n{END}as expected: {cases} cases, {steps} steps\n") and "DIFFERENT" not in out and told == ""
    c.holds(good, "the sheet itself", (out[-80:], told))
    for i, line in enumerate(lines):
        for other in changed(line):
            out, told = run("\n".join(lines[:i] + [other] + lines[i + 1 :]).encode())
            # The step, its case and the end.
            good = re.search(rf"\n{END}DIFFERENT: \d+ of {cases} cases, {steps} steps\n$", out) and out.count("DIFFERENT") >= 3
            good = bool(good) and told == f"sheet: line {i + 1} was the first that came out different\n"
            c.holds(good, f"line {i + 1}, {other}", (out[-80:], told))


def other_endings(c, stored):
    """What is printed does not depend on how lines end."""
    c.holds(run(stored.replace("\n", "\r\n").encode()) == run(stored.encode()), "the sheet with CR LF", "other output")
    wrong = f"{TITLE}\n{GOOD}\n{GOOD} \n"
    c.holds(run(wrong.replace("\n", "\r\n").encode()) == run(wrong.encode()), "a wrong line with CR LF", "other output")


def wrong_lines(c):
    for name, line, column, words in LINES:
        out, told = run(f"{TITLE}\n{GOOD}\n{line}\n{GOOD}\n".encode("latin-1"))
        # The step before it was run, and nothing behind it.
        good = out.endswith("01 00 00 00\nbad\n") and out.count("\n") == 3 and told.count("\n") == 1
        good = good and told.startswith(f"sheet: line 3, column {column}: ") and words in told
        c.holds(good, name, (out[-60:], told))


def wrong_sheets(c):
    for name, sheet, expected in SHEETS:
        out, told = run(sheet.encode())
        c.holds(out.endswith("bad\n") and END not in out and told == expected, name, (out[-60:], told))
    for seed in range(20):
        noise = random.Random(seed).randbytes(4000)
        out, told = run(noise)
        good = out == "bad\n" and re.fullmatch(r"sheet: line \d+, column \d+: .*\n", told)
        c.holds(bool(good), f"random bytes {seed}", (out[-60:], told))


def statuses(c, stored):
    names = f"# bad\n{GOOD}\n\n# Every case                    DIFFERENT: 1 of 1 case, 1 step\n{GOOD}\n"
    for name, sheet, expected in [("the sheet itself", stored, 0), ("an empty sheet", "", 1), ("words in titles", names, 0)] + [
            (name, sheet, int(last.startswith("DIFFERENT"))) for name, sheet, last in RIGHT]:
        ended = status(sheet.encode())
        c.holds(ended == expected, f"status of {name}", ended)


def main():
    c = Checks()
    with open(sys.argv[1], encoding="ascii") as f:
        stored = f.read()
    expectations(c, stored.split("\n"))
    other_endings(c, stored)
    statuses(c, stored)
    wrong_lines(c)
    wrong_sheets(c)
    for name, sheet, expected in RIGHT:
        out, told = run(sheet.encode())
        good = out.endswith(f"\n{END}{expected}\n") and (told == "") == expected.startswith("as expected")
        c.holds(good, name, (out[-80:], told))
    print(f"{c.passed} passed, {c.failed} failed")
    sys.exit(c.failed > 0)


main()
