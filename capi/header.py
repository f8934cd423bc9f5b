"""The calls that pf.h declares, for the scripts that make other calls of them."""

import re
from pathlib import Path

HEADER = Path(__file__).resolve().parent / "pf.h"


def calls():
    """Of each call its name, and its parameters as pairs of a type and a name."""
    text = re.sub(r"/\*.*?\*/", "", HEADER.read_text(encoding="utf-8"), flags=re.S)
    for name, parameters in re.findall(r"^pf_code (pf_\w+)\(([^;]*)\);", text, flags=re.M):
        words = (re.fullmatch(r"(.*?)(\w+)", " ".join(it.split())) for it in parameters.split(","))
        yield name, [(word[1].strip(), word[2]) for word in words]
