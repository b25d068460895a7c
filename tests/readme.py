"""README.md, docs/PROGRAMS.md and docs/NUMBERS.md do what they say. The main loop compiles as it stands, every line to type is
one that a shell takes, the lines of the replay program and of the sheet program print what stands below them, `make run` shows
what README.md quotes of it, and the numbers are those of the header and of the code. And no page names a file that is not there.
Arguments: what `make run` printed, what tools/cost printed, the C compiler."""
import pathlib
import re
import subprocess
import sys

# What the main loop leaves to the board.
BOARD = """
uint32_t number_that_differs(void);
uint32_t bytes_that_have_come(const uint8_t **bytes);
void forget_bytes(uint32_t count);
int new_weight_put_into(uint8_t *values);
uint16_t milliseconds(void);
int the_line_is_free(void);
void send(const uint8_t *bytes, uint32_t count);
void run(void);
"""
README, PROGRAMS, NUMBERS = "README.md", "docs/PROGRAMS.md", "docs/NUMBERS.md"
TARGETS = re.findall(r"^([a-z-]+):", pathlib.Path("Makefile").read_text(encoding="utf-8"), re.M)
TYPED = r"(?:make|rt|tools/|bash|printf|git|python3)\b"
FOLDERS = r"(?<![\w/])(?:crates|docs|tests|tools|compare|examples|include)/[\w./-]*\w"


def read(page):
    return pathlib.Path(page).read_text(encoding="utf-8")


def blocks(text):
    """The indented blocks, each without its indent, and the section that each stands in."""
    section, block, found = "", [], []
    for line in text.splitlines() + ["end"]:
        if line.startswith("    ") or (block and not line):
            block.append(line[4:])
            continue
        if block:
            found.append((section, "\n".join(block).strip("\n")))
            block = []
        if line.startswith("#"):
            section = line.lstrip("# ")
    return found


def rows(text, head):
    """The table whose first row begins so: what stands behind each row's name."""
    lines = iter(text.splitlines())
    for line in lines:
        if line.startswith(f"| {head} |"):
            break
    next(lines, None)
    table = {}
    for line in lines:
        if not line.startswith("|"):
            break
        name, *cells = (cell.strip() for cell in line.strip().strip("|").split("|"))
        table[name] = cells
    return table


def first(cell):
    """The number with which a cell begins, if it does."""
    found = re.match(r"\d+", cell)
    return int(found[0]) if found else None


class Checks:
    passed = failed = 0

    def holds(self, good, what):
        self.passed, self.failed = self.passed + bool(good), self.failed + (not good)
        if not good:
            print(what)


def compiles(c, compiler):
    loops = [code for _, code in blocks(read(README)) if code.startswith("#include")]
    c.holds(len(loops) == 1, f"{README}: there is one main loop")
    for code in loops:
        head, _, rest = code.partition("\n")
        pathlib.Path("build/readme.c").write_text(f"{head}\n{BOARD}{rest}\n", encoding="ascii")
        done = subprocess.run([*compiler, "-std=c99", "-Wall", "-Wextra", "-Werror", "-Iinclude", "-c", "-o", "build/readme.o",
                               "build/readme.c"], capture_output=True, text=True, check=False)
        c.holds(done.returncode == 0, f"{README}: the main loop does not compile: {done.stderr}")


def pasted(c, page, section, line):
    done = subprocess.run(["bash", "-n"], input=line, text=True, capture_output=True, check=False)
    c.holds(done.returncode == 0 and re.match(TYPED, line), f"{page}, {section}: not a line to paste: {line}")
    # What is told of a command stands behind a # sign, so that the line can be pasted.
    command, *words = line.partition(" # ")[0].split()
    if command == "make":
        good = all(word in TARGETS or "=" in word for word in words)
        c.holds(good, f"{page}, {section}: the Makefile does not have: {line}")
    elif command == "python3":
        c.holds(pathlib.Path(words[0]).is_file(), f"{page}, {section}: there is no {words[0]}")


def typed(c):
    """Every line to type is one; those of the two programs, which were built before, print what stands below them."""
    programs = 0
    for page in (README, PROGRAMS, NUMBERS):
        found = blocks(read(page))
        for i, (section, block) in enumerate(found):
            if not re.match(TYPED, block):
                continue
            for line in block.splitlines():
                pasted(c, page, section, line)
            if "tools/status" not in block:
                continue
            programs += 1
            done = subprocess.run(["bash", "-c", block.splitlines()[-1]], capture_output=True, text=True, check=False)
            shown = found[i + 1][1].split("\n\n")
            good = done.returncode == 0 and all(part in done.stdout for part in shown) and done.stdout.endswith(shown[-1] + "\n")
            c.holds(good, f"{page}, {section}: what is printed differs: {done.stdout[-200:]!r} {done.stderr!r}")
    c.holds(programs == 2, f"{PROGRAMS}: replay and sheet are shown")


def quoted(c, printed):
    """Of `make run` these lines, one behind the other; which list and which weighing it was differs from run to run, and so
    does whether samples were on their way when the tool asked."""
    excerpts = [block for _, block in blocks(read(README)) if re.match(r"(?:slave|tool|gun) {2}", block)]
    c.holds(len(excerpts) == 1, f"{README}: one part of `make run` is quoted")
    for block in excerpts:
        lines = [re.escape(line) for line in block.splitlines()]
        lines = [re.sub(r"\d+", r"\\d+", line) if "sample" in line else line for line in lines]
        lines = [line + r"(?:\nslave +sample: .*)*" if line.startswith("tool") else line for line in lines]
        c.holds(re.search("^" + "\n".join(lines) + "$", printed, re.M), f"{README}: `make run` does not show what is quoted of it")


def counted(c, cost):
    """The numbers of docs/NUMBERS.md are those of the code, to a twentieth: they are told anew with each version. README.md's
    four are the header's and that page's."""
    name = "Code for cortex-m4"
    said, now = rows(read(NUMBERS), name), rows(cost, name)
    c.holds(len(now) > 12 and list(said) == list(now), f"{NUMBERS}: tools/cost has other rows than the table of {name}")
    for row in said:
        for before, after in zip(map(first, said[row]), map(first, now.get(row, []))):
            good = before == after or (None not in (before, after) and abs(before - after) <= max(8, after // 20))
            c.holds(good, f"{NUMBERS}: {row}: says {before}, and tools/cost counts {after}: put its table there")
    header = read("include/xcp_slave.h")
    state = int(re.search(r"#define XCP_STATE_SIZE (\d+)", header)[1])
    most = int(re.search(r"takes up to ([\d,]+) instructions", header)[1].replace(",", ""))
    c.holds(first(rows(read(NUMBERS), "Bytes of")["state"][0]) == state, f"{NUMBERS}: the state has {state} bytes")
    # Columns: instructions, cycles and stack, each at -Os and at -O3.
    deepest = max(first(cells[4]) for row, cells in said.items() if row.startswith("deepest"))
    four = {"state": state, "code": first(said["bytes of code and of tables"][0]), "deepest stack": deepest, "longest call": most}
    told = [(first(name), *map(first, cells)) for name, cells in rows(read(README), "State").items()]
    c.holds(told == [tuple(four.values())], f"{README}: its four numbers are {told}, and should be {four}")


def sections(page):
    """What a link can have behind its # sign."""
    return {re.sub(r"[^\w -]", "", title).strip().lower().replace(" ", "-") for title in re.findall(r"^#+ (.*)", read(page), re.M)}


def named(c):
    """Every page names files, folders and sections that there are."""
    for page in (pathlib.Path(README), pathlib.Path("CHANGELOG.md"), *sorted(pathlib.Path("docs").rglob("*.md"))):
        text = read(page)
        gone = [name for name in re.findall(FOLDERS, text) if not pathlib.Path(name).exists()]
        for link in re.findall(r"\]\(([^)]+)\)", text):
            name, _, section = link.partition("#")
            path = page.parent / name if name else page
            if not path.exists() or (section and section not in sections(path)):
                gone.append(link)
        c.holds(not gone, f"{page}: names what is not there: {' '.join(gone)}")


def main():
    c = Checks()
    printed, cost, *compiler = sys.argv[1:]
    compiles(c, compiler)
    typed(c)
    quoted(c, read(printed))
    counted(c, read(cost))
    named(c)
    print(f"{c.passed} passed, {c.failed} failed")
    sys.exit(c.failed > 0)


main()
