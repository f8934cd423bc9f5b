"""Rewrites the module of the library in LLVM's text, made for addresses of 64 bits, for a machine
that has 32.

A pointer in memory stays 8 bytes wide, of which the low 4 are the address: so sizes, offsets and
usize stay those of the proof. A line that has a pointer in a way that is not known here ends it.
"""

import re
import sys

SIZES = {"ptr": 8, "i64": 8, "i32": 4, "i16": 2, "i8": 1, "i1": 1, "double": 8, "i128": 16}

END = r"(?:, align \d+)?(?:, ![a-z_.]+ !\d+)*\n"
STRUCT = r"\{[^}]*\bptr\b[^}]*\}"
LOAD = re.compile(rf"(\s+)(\S+) = load ptr, ptr (\S+?){END}")
STORE = re.compile(rf"(\s+)store ptr (\S+), ptr (\S+?){END}")
LOAD_STRUCT = re.compile(rf"(\s+)(\S+) = load ({STRUCT}), ptr (\S+?){END}")
STORE_STRUCT = re.compile(rf"(\s+)store ({STRUCT}) (\S+), ptr (\S+?){END}")
SLOT = re.compile(r"(\s+\S+ = alloca )ptr(, align \d+\n)")

# What lines are made of: a value; a number; a kind that has no pointer in it, so that it takes the
# same room in memory; a kind of a register, which is as wide as the machine has it; and what a
# function is given.
VALUE = r"(?:%[\w.$-]+|@[\w.$-]+|-?\d+|null|true|false|undef|poison)"
NUMBER = r"(?:i\d+|double)"
CONSTANT = rf"(?:{VALUE}|-?\d+\.\d+e[+-]\d+|0x\w+|zeroinitializer|splat \({NUMBER} \S+\))"
KIND = rf"(?:{NUMBER}|<\d+ x {NUMBER}>|\[\d+ x {NUMBER}\]|\{{ ?{NUMBER}(?:, {NUMBER})* ?\}})"
FIELD = rf"(?:{NUMBER}|ptr)"
IN_REGISTER = rf"(?:{FIELD}|<\d+ x {NUMBER}>|\{{ ?{FIELD}(?:, {FIELD})* ?\}})"
HOW = rf"(?: [a-z]+(?:\((?:{KIND}|none)\))?)*(?: align \d+)?"
GIVEN = rf"{IN_REGISTER}{HOW}(?: {CONSTANT})?"
FUNCTION = rf"(?:void|{IN_REGISTER}) {VALUE}\((?:{GIVEN}(?:, {GIVEN})*)?\)"
# The lines with pointers that stay as they are.
KNOWN = [
    rf"{VALUE} = alloca {KIND}",
    rf"{VALUE} = load {KIND}, ptr {VALUE}",
    rf"store {KIND} {CONSTANT}, ptr {VALUE}",
    rf"{VALUE} = getelementptr (?:inbounds |nuw |nusw )*{KIND}, ptr {VALUE}, i64 {VALUE}",
    rf"{VALUE} = extractvalue {IN_REGISTER} {VALUE}, \d+",
    rf"{VALUE} = insertvalue {IN_REGISTER} {VALUE}, {IN_REGISTER} {VALUE}, \d+",
    rf"{VALUE} = icmp \w+ ptr {VALUE}, {VALUE}",
    rf"{VALUE} = select i1 {VALUE}, ptr {VALUE}, ptr {VALUE}",
    rf"{VALUE} = ptrto(?:int|addr) ptr {VALUE} to i\d+",
    rf"{VALUE} = inttoptr i64 {VALUE} to ptr",
    rf"ret {IN_REGISTER} {VALUE}",
    rf"(?:{VALUE} = )?call {FUNCTION}",
    rf"(?:define|declare)(?: [a-z_]+)*? {FUNCTION}(?: [a-z]+)*",
]
TAIL = r"(?: #\d+)?(?: \{)?(?:, align \d+)?(?:, ![a-z_.]+ !\d+)*\s*"
STAYS = re.compile(rf"\s*(?:{'|'.join(KNOWN)}){TAIL}")
# Names that stand in quotes, and comments, may be anything.
NAMES = re.compile(r'"[^"]*"|;.*')


class UnknownForm(Exception):
    """A line that has a pointer in a way that is not known here."""


class Widener:
    def __init__(self):
        self.made = 0

    def name(self):
        self.made += 1
        return f"%wide.{self.made}"

    def load(self, space, result, at):
        word = self.name()
        yield f"{space}{word} = load i64, ptr {at}, align 8\n"
        yield f"{space}{result} = inttoptr i64 {word} to ptr\n"

    def store(self, space, value, at):
        word = self.name()
        yield f"{space}{word} = ptrtoint ptr {value} to i64\n"
        yield f"{space}store i64 {word}, ptr {at}, align 8\n"

    def load_struct(self, space, result, kind, at):
        whole, fields = "poison", fields_of(kind)
        for number, (field, offset) in enumerate(fields):
            place, value = self.name(), self.name()
            yield f"{space}{place} = getelementptr i8, ptr {at}, i64 {offset}\n"
            if field == "ptr":
                yield from self.load(space, value, place)
            else:
                yield f"{space}{value} = load {field}, ptr {place}, align 1\n"
            last = number + 1 == len(fields)
            put = result if last else self.name()
            yield f"{space}{put} = insertvalue {kind} {whole}, {field} {value}, {number}\n"
            whole = put

    def store_struct(self, space, kind, whole, at):
        for number, (field, offset) in enumerate(fields_of(kind)):
            place, value = self.name(), self.name()
            yield f"{space}{place} = getelementptr i8, ptr {at}, i64 {offset}\n"
            yield f"{space}{value} = extractvalue {kind} {whole}, {number}\n"
            if field == "ptr":
                yield from self.store(space, value, place)
            else:
                yield f"{space}store {field} {value}, ptr {place}, align 1\n"

    def lines(self, line):
        """What stands in the place of a line."""
        if "ptr" not in line:
            return [line]
        for form, make in [
            (LOAD, self.load),
            (STORE, self.store),
            (LOAD_STRUCT, self.load_struct),
            (STORE_STRUCT, self.store_struct),
        ]:
            found = form.fullmatch(line)
            if found:
                return make(*found.groups())
        slot = SLOT.fullmatch(line)
        if slot:
            return [f"{slot[1]}i64{slot[2]}"]
        bare = NAMES.sub("Q", line)
        if re.search(r"\bptr", bare) and not STAYS.fullmatch(bare):
            raise UnknownForm(line.strip())
        return [line.replace(" = ptrtoaddr ptr ", " = ptrtoint ptr ")]


def fields_of(struct):
    """The kinds of a struct's fields, and where they stand."""
    at, fields = 0, []
    for kind in (it.strip() for it in struct.strip("{} ").split(",")):
        at += -at % SIZES[kind]
        fields.append((kind, at))
        at += SIZES[kind]
    return fields


def widened(module):
    widener = Widener()
    try:
        lines = module.splitlines(keepends=True)
        return "".join(it for line in lines for it in widener.lines(line))
    except UnknownForm as error:
        sys.exit(f"wide: this line has a pointer in a way that is not known here: {error}")
