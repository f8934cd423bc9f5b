"""The forms of functions in LLVM's text: what each takes and returns, and how."""

import re

# What is said of a parameter or a result that changes nothing of how it is passed.
OF_VALUES = r"noundef|nonnull|noalias|nofree|readonly|writeonly|captures\([^)]*\)"
OF_FUNCTIONS = r"internal|dso_local"
NOT_OF_FORMS = re.compile(rf"\b(?:(?:{OF_VALUES}|{OF_FUNCTIONS})(?!\w)|dereferenceable\(\d+\))")
NAME = re.compile(r" *%[\w.$-]+$")
HEAD = re.compile(r'^(?:define|declare) ([^@\n]*)@("[^"\n]*"|[\w.$-]+)\(', re.M)


def plain(text):
    """A kind and how it is passed, in the same words for the same."""
    words = NOT_OF_FORMS.sub("", NAME.sub("", text.strip())).split()
    return re.sub(r"(?<=[{(\[]) | (?=[})\],])", "", " ".join(words))


def parts(text):
    """What stands before the bracket that closes, between commas that stand in no brackets."""
    depth, found, last = 0, [], 0
    for at, letter in enumerate(text):
        depth += (letter in "([{<") - (letter in ")]}>")
        if depth < 0 or (depth == 0 and letter == ","):
            found.append(text[last:at])
            last = at + 1
        if depth < 0:
            return [it for it in found if it.strip()]
    raise ValueError(f"no bracket closes: {text}")


def form(result, parameters):
    """The form of a function that takes these parameters."""
    return f"{plain(result)} ({', '.join(map(plain, parameters))})"


def functions(module):
    """Of each function that a module defines or declares: its name, its result, its parameters."""
    for head in HEAD.finditer(module):
        line = module[head.end() : module.index("\n", head.end())]
        yield head[2], head[1], parts(line)


def forms(module, prefix):
    """The forms of the functions whose names begin so, by name."""
    own = (it for it in functions(module) if it[0].startswith(prefix))
    return {name: form(result, parameters) for name, result, parameters in own}
