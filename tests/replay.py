"""The replay program on whole, bad and cut logs, and on long ones: its lines, what it tells standard error of the record that
it stopped at, and the status that tools/status gives. Arguments: how to run the program, and how to run it with a status."""
import subprocess
import sys

ANSWER = "9A 08 00 FF 05 00 40 40 00 01 01 8E\n"
CONNECT = bytes.fromhex("9A0200FF0001")
# The longest body of a record.
LONGEST = 256
CUT = "is cut off\n"
NONE = (f"is none: length and kind, 2 bytes each, then for kind 1 at most {LONGEST} wire bytes, for 2 an event and a clock, "
        f"for 3 nothing, for 4 an offset and bytes that lie below 4,096 from there on, {LONGEST} in all\n")


def record(kind, body=b"", length=None):
    return (len(body) if length is None else length).to_bytes(2, "little") + kind.to_bytes(2, "little") + body


def measured(offset, count):
    return record(4, offset.to_bytes(2, "little") + b"\x9a" * count)


SLOT = record(3)
WHOLE = record(1, CONNECT) + SLOT
# SHORT_UPLOAD of 63 measured bytes from 0; its answer with zeros, and with SYNC bytes, which go as pairs.
UPLOAD = bytes.fromhex("9A 08 01 F4 3F 00 01 00 00 00 00 3D")
ZEROS = "9A 40 01 FF " + "00 " * 63 + "40\n"
PAIRS = "9A 40 01 FF " + "9B 01 " * 63 + "26\n"
# What stands behind the whole case, and what is then printed after its line; or what is told of the record that is bad.
CASES = {
    "the whole case": (b"", ""),
    "a slot with nothing": (SLOT, "-\n"),
    "wire bytes, none of them": (record(1) + SLOT, "-\n"),
    "event 2 does nothing": (record(2, b"\2\0\0") + SLOT, "-\n"),
    "an event of 2 bytes": (record(2, b"\0\0") + SLOT, NONE),
    "an event of 4 bytes": (record(2, b"\0\0\0\0") + SLOT, NONE),
    "a slot with a body": (record(3, b"\0") + SLOT, NONE),
    "kind 0": (record(0) + SLOT, NONE),
    "kind 5": (record(5) + SLOT, NONE),
    "kind 0x0100": (record(0x0100) + SLOT, NONE),
    "the longest body": (record(1, bytes(LONGEST)) + SLOT, "-\n"),
    "the longest body, a command at its end": (record(1, UPLOAD.rjust(LONGEST, b"\0")) + SLOT, ZEROS),
    "a byte more": (record(1, bytes(LONGEST + 1)) + SLOT, NONE),
    "a byte more, not there": (record(1, length=LONGEST + 1), NONE),
    "a body of 65,535, not there": (record(1, length=65535), NONE),
    "63 pairs in a frame": (measured(0, 63) + record(1, UPLOAD) + SLOT, PAIRS),
    "measured bytes without an offset": (record(4, b"\0") + SLOT, NONE),
    "no measured byte at 4096": (record(4, b"\0\x10") + SLOT, "-\n"),
    "no measured byte at 4097": (record(4, b"\1\x10") + SLOT, NONE),
    "a measured byte at 4095": (record(4, b"\xff\x0f\7") + SLOT, "-\n"),
    "a measured byte at 4096": (record(4, b"\0\x10\7") + SLOT, NONE),
    "the most measured bytes, at the end": (measured(4096 - (LONGEST - 2), LONGEST - 2) + SLOT, "-\n"),
    "the most measured bytes, over the end": (measured(4097 - (LONGEST - 2), LONGEST - 2) + SLOT, NONE),
    "a measured byte more": (measured(0, LONGEST - 1) + SLOT, NONE),
    "a cut header": (SLOT[:3], CUT),
    "a cut body": (record(1, CONNECT)[:7], CUT),
    "the longest body, cut": (record(1, bytes(LONGEST))[:-1], CUT),
}
# Many chunks, with records across their ends: 261 bytes and two records a turn.
TURNS = 30_000
LONG = WHOLE + (record(1, bytes(LONGEST - 3)) + SLOT) * TURNS
LINES = ANSWER + "-\n" * TURNS


def stopped(records, at, why):
    return f"replay: record {records + 1}, which begins at byte {at} (the log's first byte is 0), {why}"


def runs():
    """Each log's name, bytes, lines, and what standard error has."""
    for name, (log, then) in CASES.items():
        bad = then in (CUT, NONE)
        yield name, WHOLE + log, ANSWER + ("bad\n" if bad else then), stopped(2, 14, then) if bad else ""
    yield "an empty log", b"", "", ""
    yield "a log of one byte", b"\1", "bad\n", stopped(0, 0, CUT)
    yield "a long log", LONG, LINES, ""
    yield "a long log, bad at its end", LONG + record(9), LINES + "bad\n", stopped(2 + 2 * TURNS, len(LONG), NONE)
    yield "a long log, cut at its end", LONG + b"\0", LINES + "bad\n", stopped(2 + 2 * TURNS, len(LONG), CUT)


def ran(words, log):
    done = subprocess.run(words.split(), input=log, capture_output=True, check=False)
    return done.stdout.decode(), done.stderr.decode(), done.returncode


def main():
    passed = failed = 0
    for name, log, lines, told in runs():
        status = 1 if lines.endswith("bad\n") else 0
        for words, expected in zip(sys.argv[1:], (0, status)):
            out, err, ended = ran(words, log)
            # One line is told where it stopped, and none otherwise.
            good = out == lines and err == told and err.count("\n") == status and ended == expected
            passed, failed = passed + good, failed + (not good)
            if not good:
                print(f"{name}: expected {lines[-60:]!r}, printed {out[-60:]!r}, told {err!r}, ended with {ended}")
    print(f"{passed} passed, {failed} failed")
    sys.exit(failed > 0)


main()
