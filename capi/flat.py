"""The calls of the proved module in a form that any machine and language can call.

In the module a call takes its structs as C does on x86-64 Linux: a key in one register, a vector in
two as long as there are some, and else in memory. Here each gets a call flat_pf_X beside it that
takes structs apart, as `tools/compile pf_c` makes them of the unproved sources: a key is two
numbers, a vector two, and a material stays in memory. Where the module has a call in another form
than pf.h says, nothing is made.
"""

import re
import sys

from forms import form, forms, functions, plain
from header import calls

REGISTERS = 6
WHOLE = {"uint8_t": "i8", "uint16_t": "i16", "uint32_t": "i32"}
WHOLE |= {"int64_t": "i64", "uint64_t": "i64", "size_t": "i64"}
RESULT = "i32"


class Wrapper:
    """The parameters of a flat call, what it does first, and what it hands on to the module's own
    call, whose parameters are these."""

    def __init__(self, own=()):
        self.own = own
        self.taken, self.lines, self.passed, self.registers = [], [], [], REGISTERS

    def take(self, kind, name):
        self.taken.append(f"{kind} %{name}")
        return f"{kind} %{name}"

    def hand_on(self, *words):
        self.passed += words
        self.registers -= len(words)

    def key(self, name):
        index = self.take("i32", f"{name}.index")
        generation = self.take("i32", f"{name}.generation")
        self.lines += [
            f"%{name}.low = zext {index} to i64",
            f"%{name}.wide = zext {generation} to i64",
            f"%{name}.high = shl i64 %{name}.wide, 32",
            f"%{name} = or i64 %{name}.low, %{name}.high",
        ]
        self.hand_on(f"i64 %{name}")

    def vector(self, name):
        x, y = self.take("i64", f"{name}.x"), self.take("i64", f"{name}.y")
        if self.registers >= 2:
            self.hand_on(x, y)
            return
        self.lines += [
            f"%{name} = alloca [2 x i64], align 8",
            f"store {x}, ptr %{name}, align 8",
            f"%{name}.second = getelementptr i8, ptr %{name}, i64 8",
            f"store {y}, ptr %{name}.second, align 8",
        ]
        self.passed.append(f"ptr byval([16 x i8]) align 8 %{name}")

    def number(self, kind, name):
        """A number, which fills its register where the module's own call has it so."""
        own = self.own[len(self.passed)] if len(self.passed) < len(self.own) else kind
        extended = f"{kind} zeroext"
        self.hand_on(f"{extended if plain(own) == extended else kind} %{name}")

    def parameter(self, kind, name):
        if kind in ("pf_scene", "pf_peer"):
            self.key(name)
        elif kind == "pf_v2":
            self.vector(name)
        elif kind == "pf_material":
            self.take("ptr", name)
            self.passed.append(f"ptr byval([24 x i8]) align 8 %{name}")
        else:
            word = "ptr" if "*" in kind else WHOLE[kind]
            self.take(word, name)
            self.number(word, name)

    def text(self, name):
        body = "".join(f"  {line}\n" for line in self.lines)
        return (
            f"define {RESULT} @flat_{name}({', '.join(self.taken)}) nounwind {{\n{body}"
            f"  %result = call {RESULT} @{name}({', '.join(self.passed)})\n"
            f"  ret {RESULT} %result\n}}\n"
        )


def wrapper_of(parameters, own=()):
    wrapper = Wrapper(own)
    for kind, word in parameters:
        wrapper.parameter(kind, word)
    return wrapper


def check_form(name, asked, own):
    """Ends the script where the module has a call in another form than it is asked for."""
    if own is None:
        sys.exit(f"flat: pf.h declares {name}, which the module does not have")
    if asked != own:
        sys.exit(f"flat: pf.h has {name} called as {asked}, but the module has it as {own}")


def check_flat_calls(module):
    """Ends the script where a flat call of an unproved module is another one than pf.h says."""
    own = forms(module, "flat_pf_")
    for name, parameters in calls():
        asked = form(RESULT, wrapper_of(parameters).taken)
        check_form(name, asked, own.get(f"flat_{name}"))


def with_flat_calls(module):
    """The text of the proved module, with the flat calls behind it: they alone are exported."""
    texts = [re.sub(r"^define (?=.*@pf_[a-z_]+\()", "define internal ", module, flags=re.M)]
    own = {name: it for name, *it in functions(module) if name.startswith("pf_")}
    for name, parameters in calls():
        result, taken = own.get(name, ("", []))
        wrapper = wrapper_of(parameters, taken)
        check_form(name, form(RESULT, wrapper.passed), form(result, taken) if name in own else None)
        texts.append(wrapper.text(name))
    return "\n".join(texts)
