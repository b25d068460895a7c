"""docs/controller.a2l against what the slave answers, and against examples/. Arguments: how to run the replay program."""
import math
import re
import subprocess
import sys

from a2ml import Grammar, Reading, Unfit, without_comments

SYNC, ESC = 0x9A, 0x9B
# What opens both locks after the replay program's start number, 1.
OPENING = ["FF 00", "F8 00 01", "F7 04 00 7F F0 04", "F8 00 04", "F7 04 04 01 E0 08"]
MANDATORY = {0xFF, 0xFE, 0xFD, 0xFC}  # CONNECT, DISCONNECT, GET_STATUS, SYNCH
CODES = {
    "GET_SEED": 0xF8, "UNLOCK": 0xF7, "SET_MTA": 0xF6, "UPLOAD": 0xF5, "SHORT_UPLOAD": 0xF4, "BUILD_CHECKSUM": 0xF3,
    "DOWNLOAD": 0xF0, "SHORT_DOWNLOAD": 0xED, "CLEAR_DAQ_LIST": 0xE3, "SET_DAQ_PTR": 0xE2, "WRITE_DAQ": 0xE1,
    "SET_DAQ_LIST_MODE": 0xE0, "START_STOP_DAQ_LIST": 0xDE, "START_STOP_SYNCH": 0xDD, "GET_DAQ_PROCESSOR_INFO": 0xDA,
    "GET_DAQ_RESOLUTION_INFO": 0xD9, "FREE_DAQ": 0xD6, "ALLOC_DAQ": 0xD5, "ALLOC_ODT": 0xD4, "ALLOC_ODT_ENTRY": 0xD3,
}
TYPES = {"UBYTE": 1, "UWORD": 2, "ULONG": 4}
# How examples/host.c says where what lies: name, place, memory, how often if in rows, size, meaning.
PLACE = r"\b([A-Z]+) = (0x[0-9A-Fa-f]+),?\s*/\* (\w+): ((?:\d+ times )*)(one|two|four) bytes?, (.*?) \*/"
WORDS = {"one": 1, "two": 2, "three": 3, "four": 4}
# What GET_DAQ_PROCESSOR_INFO says of the lists, a bit each, and the word that describes it.
ABILITIES = {0x02: "PRESCALER_SUPPORTED", 0x04: "RESUME_SUPPORTED", 0x08: "STIM", 0x20: "PID_OFF_SUPPORTED"}
OVERLOAD = ["NO_OVERLOAD_INDICATION", "OVERLOAD_INDICATION_PID", "OVERLOAD_INDICATION_EVENT"]


class Block:
    """The words of a block, and the blocks inside it by name."""

    def __init__(self):
        self.words, self.blocks = [], {}

    def all(self, name):
        return self.blocks.get(name, [])

    def one(self, *names):
        block = self
        for name in names:
            block, = block.all(name)
        return block

    def after(self, word):
        return self.words[self.words.index(word) + 1]

    def values(self):
        return [value(word) for word in self.words]


def value(word):
    return int(word, 0) if re.fullmatch(r"-?(0x[0-9A-Fa-f]+|\d+)", word) else word


def words_of(text):
    return re.findall(r'"[^"]*"|[^\s"]+', without_comments(text))


def parsed(text):
    words = words_of(text)
    stack = [(None, Block())]
    while words:
        word = words.pop(0)
        if word == "/begin":
            stack.append((words.pop(0), Block()))
        elif word == "/end":
            name, block = stack.pop()
            if words.pop(0) != name:
                sys.exit(f"docs/controller.a2l: the block {name} ends under another name\n0 passed, 1 failed")
            stack[-1][1].blocks.setdefault(name, []).append(block)
        else:
            stack[-1][1].words.append(word)
    (_, whole), = stack
    return whole


def fits(grammar, words):
    """What is wrong with an IF_DATA block, by the grammar; nothing if it fits."""
    try:
        Reading(grammar, words)
    except Unfit as why:
        return str(why)
    return ""


def by_grammar(c, text):
    """Every IF_DATA block fits the file's A2ML, and no longer with any one word of it changed; the numbers of what they name."""
    blocks = re.findall(r"/begin IF_DATA\b(.*?)/end IF_DATA\b", without_comments(text), re.S)
    chosen = {}
    try:
        grammar = Grammar(re.search(r"/begin A2ML\b(.*?)/end A2ML\b", text, re.S)[1])
    except Unfit as why:
        c.same("the A2ML", str(why), "")
        return chosen
    c.same("IF_DATA blocks: of the module, its segment and each measurement", len(blocks), 2 + text.count("/begin MEASUREMENT"))
    for words in map(words_of, blocks):
        c.same(f"IF_DATA {' '.join(words[:3])}", fits(grammar, words), "")
        chosen.update(Reading(grammar, words).chosen if not fits(grammar, words) else {})
        for at, word in enumerate(words):
            changed = words[:at] + ["NONSENSE"] + words[at + 1 :]
            c.same(f"IF_DATA {' '.join(words[:3])} with another word than {word} is refused", bool(fits(grammar, changed)), True)
        c.same(f"IF_DATA {' '.join(words[:3])} cut short is refused", bool(fits(grammar, words[:-1])), True)
    return chosen


def record(kind, body=b""):
    return len(body).to_bytes(2, "little") + kind.to_bytes(2, "little") + body


def frame(packet):
    message = bytes([len(packet), 0]) + packet
    message += bytes([sum(message) % 256])
    return bytes([SYNC]) + message.replace(b"\x9b", b"\x9b\x00").replace(b"\x9a", b"\x9b\x01")


def asked(*commands):
    """The slave's answer to each command, in one session with both locks open."""
    log = b"".join(record(1, frame(bytes.fromhex(command))) + record(3) for command in OPENING + list(commands))
    lines = subprocess.run(sys.argv[1:], input=log, stdout=subprocess.PIPE, check=True).stdout.decode().splitlines()
    frames = [bytes.fromhex(line) for line in lines[len(OPENING):]]
    return [f[1:].replace(b"\x9b\x01", b"\x9a").replace(b"\x9b\x00", b"\x9b")[2:-1] for f in frames]


class Checks:
    passed = failed = 0

    def same(self, what, described, told):
        if described == told:
            self.passed += 1
        else:
            self.failed += 1
            print(f"{what}: docs/controller.a2l has {described!r}, and {told!r} is right")


def protocol(c, module):
    xcp = module.one("IF_DATA")
    words = xcp.one("PROTOCOL_LAYER").values()
    (_, resources, mode, cto, dto, dto_high, layer, transport), = asked("FF 00")
    c.same("version of the protocol layer", words[0] >> 8, layer)
    c.same("version of the transport", xcp.one("XCP_ON_SxI").values()[0] >> 8, transport)
    c.same("MAX_CTO", words[8], cto)
    c.same("MAX_DTO", words[9], dto + 256 * dto_high)
    order = ["MSB_LAST", "MSB_FIRST"][mode & 1]
    c.same("byte order", [words[10], module.one("MOD_COMMON").after("BYTE_ORDER")], [f"BYTE_ORDER_{order}", order])
    c.same("granularity", words[11], ["ADDRESS_GRANULARITY_BYTE", "ADDRESS_GRANULARITY_WORD"][mode >> 1 & 3])
    c.same("calibration and lists, each with a key", "SEED_AND_KEY_EXTERNAL_FUNCTION" in words, resources == 0x05)
    listed = {CODES[words[i + 1]] for i, word in enumerate(words) if word == "OPTIONAL_CMD"}
    # DISCONNECT comes last, and CONNECT before it: after one there is silence, after the other all is locked.
    codes = [*range(0xC0, 0xFE), 0xFF, 0xFE]
    for code, answer in zip(codes, asked(*(f"{code:02X} 00 00 00 00 00 00 00" for code in codes))):
        c.same(f"command {code:02X}", code in listed | MANDATORY, answer[:2] != b"\xfe\x20")


def numbers(c, chosen):
    """The numbers that the A2ML gives to the words that stand in the blocks, each as the slave says or means it."""
    processor, resolution, _, summed, connected = asked(
        "DA", "D9", "F6 00 00 00 00 00 00 00", "F3 00 00 00 10 00 00 00", "FF 00")
    properties, key, granularity, stamp = processor[1], processor[7], resolution[1], resolution[5]
    sum_type, mode = summed[1], connected[2]
    told = {
        **CODES, "BYTE_ORDER_MSB_LAST": mode & 1, "ADDRESS_GRANULARITY_BYTE": 1 << (mode >> 1 & 3), "DYNAMIC": properties & 1,
        "NO_OVERLOAD_INDICATION": properties >> 6, "OPTIMISATION_TYPE_DEFAULT": key & 15, "ADDRESS_EXTENSION_FREE": key >> 4 & 3,
        "IDENTIFICATION_FIELD_TYPE_ABSOLUTE": key >> 6, "GRANULARITY_ODT_ENTRY_SIZE_DAQ_BYTE": granularity,
        "SIZE_WORD": stamp & 7, "UNIT_1MS": stamp >> 4, "XCP_ADD_12": sum_type,
    }
    # Of the others no answer tells: an event's direction, and what is common practice of the serial line.
    untold = {"DAQ": 1, "PARITY_NONE": 0, "ONE_STOP_BIT": 1, "HEADER_LEN_CTR_BYTE": 1, "CHECKSUM_BYTE": 1}
    c.same("numbers of the A2ML", dict(sorted(chosen.items())), dict(sorted({**told, **untold}.items())))


def wrong_keys(c, text):
    """How many of them the comment beside the keys lets pass, and what GET_SEED is answered then."""
    most, code = re.search(r"After (\w+)[\s*]+wrong keys GET_SEED is refused with (0x\w\w)", text).groups()
    answers = asked(*["FF 00", "F8 00 01", "F7 04 00 00 00 00"] * (WORDS[most] + 1))[1::3]
    c.same("wrong keys until no seed is given", WORDS[most], sum(answer[0] == 0xFF for answer in answers))
    c.same("what GET_SEED is answered then", bytes([0xFE, value(code)]), answers[-1])


def lists(c, daq):
    words = daq.values()
    processor, resolution = asked("DA", "D9")
    _, properties, lists_low, lists_high, events, events_high, fewest, key = processor
    c.same("kind of lists", words[0], ["STATIC", "DYNAMIC"][properties & 1])
    c.same("MAX_DAQ", words[1], granted("D5 00 {:02X} 00"))
    c.same("MAX_EVENT_CHANNEL", words[2], events + 256 * events_high)
    c.same("events described", [e.values()[2] for e in daq.all("EVENT")], list(range(events)))
    c.same("MIN_DAQ", words[3], fewest)
    c.same("optimisation, extension, identification", words[4:7] == [
        "OPTIMISATION_TYPE_DEFAULT", "ADDRESS_EXTENSION_FREE", "IDENTIFICATION_FIELD_TYPE_ABSOLUTE"], key == 0)
    _, granularity, size, _, _, stamp, ticks, _ = resolution
    c.same("granularity of an entry", words[7] == "GRANULARITY_ODT_ENTRY_SIZE_DAQ_BYTE", granularity == 1)
    c.same("MAX_ODT_ENTRY_SIZE_DAQ", words[8], size)
    c.same("overload indication", words[9], OVERLOAD[properties >> 6])
    told = {word for bit, word in ABILITIES.items() if properties & bit}
    c.same("what lists can do besides", {*words[10:], *daq.blocks} - {"TIMESTAMP_SUPPORTED", "DAQ_LIST", "EVENT"}, told)
    described = daq.one("TIMESTAMP_SUPPORTED").values()
    c.same("timestamps", bool(described), bool(properties & 0x10))
    c.same("tick", described[0], ticks)
    c.same("bytes and unit of a timestamp", described[1:3], ["SIZE_WORD", "UNIT_1MS"])
    c.same("timestamp fixed", "TIMESTAMP_FIXED" in described, bool(stamp & 8))
    c.same("lists described, as many as there are at first", len(daq.all("DAQ_LIST")), lists_low + 256 * lists_high)
    for one in daq.all("EVENT"):
        each_event(c, one, words[1])


def granted(request, *before):
    """The largest count, put into such a request, that the slave has room for; before it and FREE_DAQ come these."""
    counts = range(255, 0, -1)
    answers = asked("D6", *before, *map(request.format, counts))[1 + len(before):]
    return counts[answers.index(b"\xff")]


def pool(c, text):
    """The comment above the events: how much there is, and what more is answered."""
    said = re.search(r"a pool of (\d+) lists, (\d+) ODTs and (\d+) entries", text).groups()
    code = re.search(r"What passes the pool is refused with (0x\w\w)", text)[1]
    c.same("the pool", list(map(int, said)), [
        granted("D5 00 {:02X} 00"), granted("D4 00 00 00 {:02X}", "D5 00 01 00"),
        granted("D3 00 00 00 00 {:02X}", "D5 00 01 00", "D4 00 00 00 01")])
    c.same("what passes the pool", bytes([0xFE, value(code)]), asked("D6", f"D5 00 {int(said[0]) + 1:02X} 00")[-1])
    names = re.search(r"together: (\w+)[\s*]+first, then (\w+), (\w+) and (\w+), in this order", text).groups()
    rests = ["", " 00 01 00", " 00 00 00 01", " 00 00 00 00 01"]
    c.same("the order of the four", asked(*(f"{CODES[name]:02X}{rest}" for name, rest in zip(names, rests))), [b"\xff"] * 4)


def direction(answers):
    """Of SET_DAQ_LIST_MODE, asked for samples and for stimulation."""
    return {(True, False): "DAQ", (False, True): "STIM", (True, True): "DAQ_STIM"}[tuple(a == b"\xff" for a in answers)]


def each_event(c, one, most):
    """So many lists can be allocated, and each of them be on it."""
    _, _, number, described, lists, *_ = one.values()
    made = ["D6", f"D5 00 {most:02X} 00"]
    c.same(f"direction of event {number}", described,
           direction(asked(*made, f"E0 10 00 00 {number:02X} 00 01 00", f"E0 12 00 00 {number:02X} 00 01 00")[2:]))
    modes = asked(*made, *(f"E0 10 {which:02X} 00 {number:02X} 00 01 00" for which in range(255)))[2:]
    c.same(f"lists of event {number}", lists, modes.count(b"\xff"))


def rooms(c, text):
    """The comment above the events: what each ODT of a long list has room for starts, and a byte more does not."""
    first, later = re.search(r"the first ODT of a list has room for (\d+) bytes, and each later one for (\d+)", text).groups()
    for odt in range(16):
        most = int(later if odt else first)
        for size in (most, most + 1):
            parts = [min(4, size - at) for at in range(0, size, 4)]
            answers = asked("D6", "D5 00 01 00", "D4 00 00 00 10", f"D3 00 00 00 {odt:02X} {len(parts):02X}",
                            "E0 10 00 00 00 00 01 00", f"E2 00 00 00 {odt:02X} 00",
                            *(f"E1 FF {part:02X} 00 00 00 00 00" for part in parts), "DE 01 00 00")
            c.same(f"{size} bytes in ODT {odt}", size <= most, answers[-1] == b"\xff\x00")


def checksum(c, segment):
    described = segment.one("CHECKSUM").values()
    _, done, refused = asked("F6 00 00 00 00 00 00 00", "F3 00 00 00 10 00 00 00", "F3 00 00 00 00 00 00 00")
    c.same("checksum", described[0] == "XCP_ADD_12", done[1] == 2)
    c.same("MAX_BLOCK_SIZE", described[2], int.from_bytes(refused[4:], "little"))


def placed(module, one):
    """Address, extension, rows and columns, bytes and conversion of a CHARACTERISTIC or MEASUREMENT."""
    shape = []
    if "ECU_ADDRESS" in one.words:
        kind, conversion, address = one.words[2], one.words[3], one.after("ECU_ADDRESS")
    else:
        layout, = (each for each in module.all("RECORD_LAYOUT") if each.words[0] == one.words[4])
        kind, conversion, address = layout.words[3], one.words[6], one.words[3]
        if one.words[2] == "VAL_BLK":
            at = one.words.index("MATRIX_DIM")
            columns, rows, layers = map(value, one.words[at + 1 : at + 4])
            shape = [rows, columns] + [layers] * (layers != 1)
    return value(address), value(one.after("ECU_ADDRESS_EXTENSION")), shape, TYPES[kind], conversion


def meant(c, module, name, conversion, meaning):
    """A number in tenths, a number as it is, or words for its values."""
    method, = (one for one in module.all("COMPU_METHOD") if one.words[0] == conversion)
    if "COEFFS" in method.words:
        described = [value(word) for word in method.words[method.words.index("COEFFS") + 1:]]
        c.same(f"reckoning of {name}", described, [0, 10 if "tenths" in meaning else 1, 0, 0, 0, 1])
    else:
        table, = (one for one in module.all("COMPU_VTAB") if one.words[0] == method.after("COMPU_TAB_REF"))
        c.same(f"words of {name}", [word.strip('"') for word in table.words[4:]], re.findall(r"\w+", meaning))


def places(c, module, host):
    """What lies where, against examples/host.c; gives the memories' sizes by extension."""
    memories = re.findall(r"static uint8_t (\w+)\[(\d+)\];\s*/\* extension (\d)", host)
    extensions = {name: int(extension) for name, _, extension in memories}
    told = {name: (int(at, 0), extensions[memory], [int(n) for n in re.findall(r"\d+", times)], WORDS[size], meaning)
            for name, at, memory, times, size, meaning in re.findall(PLACE, host)}
    described = {one.words[0]: one for one in module.all("CHARACTERISTIC") + module.all("MEASUREMENT")}
    c.same("names", sorted(described), sorted(told))
    for name, (*place, meaning) in told.items():
        *at, conversion = placed(module, described[name])
        c.same(f"address, extension, rows and bytes of {name}", at, place)
        meant(c, module, name, conversion, meaning)
    for memory, name, size in re.findall(r"put\((\w+) \+ ([A-Z]+), .*, (\d)\);", host):
        c.same(f"memory and bytes of {name}, in the host's own code", (extensions[memory], int(size)), told[name][1:4:2])
    sizes = {int(extension): int(size) for _, size, extension in memories}
    apart(c, told, sizes)
    return sizes


def apart(c, told, sizes):
    """All lies inside its memory, and nothing over anything else."""
    taken = {}
    for name, (at, extension, shape, size, _) in told.items():
        places = range(at, at + size * math.prod(shape))
        c.same(f"{name} lies inside", places.stop <= sizes[extension], True)
        others = {taken[extension, place] for place in places if (extension, place) in taken}
        c.same(f"what {name} lies over", others, set())
        taken.update({(extension, place): name for place in places})


def setting_tool(c, module):
    """The places that examples/tool.py works at, and how it sees the drug table."""
    text = open("examples/tool.py").read()
    names, places = re.search(r"^(UNIT, .*) = (0x.*)$", text, re.M).groups()
    described = {one.words[0]: placed(module, one) for one in module.all("CHARACTERISTIC") + module.all("MEASUREMENT")}
    told = dict(zip(names.split(", "), (int(place, 0) for place in places.split(", "))))
    c.same("places in examples/tool.py", {name: place for name, (place, *_) in described.items()}, told)
    rows, columns = map(int, re.search(r"for drug in range\((\d+)\) for weight in range\((\d+)\)", text).groups())
    c.same("drug table of examples/tool.py", described["DRUGS"][2], [rows, columns])


def example(c, module):
    host, board = open("examples/host.c").read(), open("examples/board.c").read()
    controller = open("examples/cortex-m/board.c").read()
    sizes = places(c, module, host)
    setting_tool(c, module)
    segment = module.one("MOD_PAR", "MEMORY_SEGMENT")
    extension = segment.one("IF_DATA", "SEGMENT").values()[2]
    c.same("the segment's extension, first address and size", (extension, *segment.values()[5:7]), (0, 0, sizes[0]))
    raised = int(re.search(r"xcp_event\([^;]*, (\d+),\s*clock_milliseconds", host).group(1))
    for one in module.all("MEASUREMENT"):
        c.same(f"event of {one.words[0]}", value(one.one("IF_DATA", "DAQ_EVENT").after("EVENT")), raised)
    event, = (e.values() for e in module.one("IF_DATA", "DAQ").all("EVENT") if e.values()[2] == raised)
    cycle = int(re.search(r"WEIGHING = (\d+) /\* microseconds", board).group(1)) // 1000
    c.same("cycle of the event, in milliseconds", event[5:7], [cycle, 6])
    cycle = int(re.search(r"WEIGHING = (\d+) /\* milliseconds", controller).group(1))
    c.same("cycle of the event on the Cortex-M4, in milliseconds", event[5:7], [cycle, 6])
    sxi = module.one("IF_DATA", "XCP_ON_SxI")
    for name, one in (("", board), (" on the Cortex-M4", controller)):
        c.same(f"baud rate{name}", sxi.values()[1], int(re.search(r"BAUD = (\d+)", one).group(1)))
    c.same("SYNC and ESC", sxi.one("FRAMING").values(), [SYNC, ESC])


def main():
    c = Checks()
    text = open("docs/controller.a2l").read()
    numbers(c, by_grammar(c, text))
    module = parsed(text).one("PROJECT", "MODULE")
    protocol(c, module)
    wrong_keys(c, text)
    lists(c, module.one("IF_DATA", "DAQ"))
    pool(c, text)
    rooms(c, text)
    checksum(c, module.one("MOD_PAR", "MEMORY_SEGMENT", "IF_DATA", "SEGMENT"))
    example(c, module)
    print(f"{c.passed} passed, {c.failed} failed")
    sys.exit(c.failed > 0)


main()
