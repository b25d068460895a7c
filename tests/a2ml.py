"""A2ML, the part of an A2L file that says what its IF_DATA blocks are made of: reads it, and reads such a block by it."""
import re

# The sizes of numbers: their smallest and their largest value.
NUMBERS = {
    "char": (-128, 127), "int": (-2**15, 2**15 - 1), "long": (-2**31, 2**31 - 1),
    "uchar": (0, 255), "uint": (0, 2**16 - 1), "ulong": (0, 2**32 - 1),
}
KINDS = ("enum", "struct", "taggedstruct", "taggedunion")


class Unfit(Exception):
    """What is wrong, in words."""


def without_comments(text):
    return re.sub(r"/\*.*?\*/|//[^\n]*", " ", text, flags=re.S)


class Grammar:
    """Each type is a tuple: its kind, and what it is made of."""

    def __init__(self, text):
        self.words = re.findall(r'"[^"]*"|0x[0-9A-Fa-f]+|\w+|\S', without_comments(text))
        self.named, self.block = {}, None
        while self.words:
            if self.words[0] == "block":
                if self.block:
                    raise Unfit("a second block stands outside all types")
                self.take("block")
                self.block = self.string(), self.type()
            else:
                self.type()
            self.take(";")
        if not self.block or self.block[0] != "IF_DATA":
            raise Unfit('no block "IF_DATA" is there')

    def take(self, *expected):
        word = self.words.pop(0) if self.words else "its end"
        if expected and word not in expected:
            raise Unfit(f"{word} stands where {' or '.join(expected)} should")
        return word

    def string(self):
        word = self.take()
        if not word.startswith('"'):
            raise Unfit(f"{word} stands where a tag in quotes should")
        return word[1:-1]

    def type(self):
        kind = self.take(*NUMBERS, *KINDS)
        if kind in NUMBERS:
            return (kind, self.length())
        name = None if self.words[0] == "{" else self.take()
        if self.words[0] != "{":
            if (kind, name) not in self.named:
                raise Unfit(f"there is no {kind} {name}")
            return self.named[kind, name]
        self.take("{")
        made = (kind, {"enum": self.enumerators, "struct": self.members}.get(kind, self.tagged)())
        self.take("}")
        if name:
            self.named[kind, name] = made
        return made

    def length(self):
        if self.words[0] != "[":
            return None
        self.take("[")
        length = int(self.take(), 0)
        self.take("]")
        return length

    def enumerators(self):
        values, comma = {}, ","
        while comma == ",":
            tag = self.string()
            self.take("=")
            values[tag] = int(self.take(), 0)
            comma = self.words[0]
            if comma == ",":
                self.take(",")
        return values

    def members(self):
        members = []
        while self.words[0] != "}":
            members.append(self.type())
            self.take(";")
        return members

    def tagged(self):
        """By tag: whether it is a block, whether it may be there several times, and the type behind it, if any."""
        tags = {}
        while self.words[0] != "}":
            many = self.words[0] == "("
            if many:
                self.take("(")
            block = self.words[0] == "block"
            if block:
                self.take("block")
            tag = self.string()
            bare = self.words[0] in (";", ")")
            tags[tag] = block, many, None if bare else self.type()
            if many:
                self.take(")")
                self.take("*")
            self.take(";")
        return tags


class Reading:
    """A block's words, read by a grammar; `chosen` has the number of each enumerator that stands there."""

    def __init__(self, grammar, words):
        self.words, self.at, self.chosen = words, 0, {}
        self.read(grammar.block[1])
        if self.at < len(words):
            raise Unfit(f"{words[self.at]} is left over")

    def look(self, ahead=0):
        return self.words[self.at + ahead] if self.at + ahead < len(self.words) else "its end"

    def take(self, *expected):
        word = self.look()
        if expected and word not in expected:
            raise Unfit(f"{word} stands where {' or '.join(expected)} should")
        self.at += 1
        return word

    def read(self, kind_and_parts):
        kind, parts = kind_and_parts
        if kind in NUMBERS:
            self.number(kind, parts)
        elif kind == "enum":
            word = self.take(*parts)
            self.chosen[word] = parts[word]
        elif kind == "struct":
            for part in parts:
                self.read(part)
        else:
            self.tagged(parts, kind == "taggedunion")

    def number(self, kind, length):
        word = self.take()
        if kind == "char" and length:
            if not re.fullmatch(rf'"[^"]{{0,{length - 1}}}"', word):
                raise Unfit(f"{word} is no text in quotes of fewer than {length} signs")
            return
        least, most = NUMBERS[kind]
        if not re.fullmatch(r"-?(0x[0-9A-Fa-f]+|\d+)", word) or not least <= int(word, 0) <= most:
            raise Unfit(f"{word} is no {kind}")

    def tagged(self, tags, single):
        seen = set()
        while not (single and seen):
            begins = self.look() == "/begin"
            tag = self.look(int(begins))
            if tag not in tags or tags[tag][0] != begins:
                return
            _, many, part = tags[tag]
            if tag in seen and not many:
                raise Unfit(f"{tag} is there a second time")
            seen.add(tag)
            self.at += 1 + begins
            if part:
                self.read(part)
            if begins:
                self.take("/end")
                self.take(tag)
