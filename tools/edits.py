"""Edits: changes of a crate's files that its proofs must refuse. One format for all of them, a block of lines:

    # NAME: the fact that it breaks
    file: src/lib.rt
    old: a text that stands there once
    new: what stands there instead

with as many pairs of `old` and `new` as it takes. A table is blocks with blank lines between; a file of must-fail has one block,
and its name is the file's."""
import pathlib
import re
from typing import NamedTuple


class Edit(NamedTuple):
    name: str
    file: str
    changes: list


def read_block(block, name=None):
    first = re.match(r"# (?:(\w+): )?", block)
    olds, news = (re.findall(rf"^{word}: ?(.*)$", block, re.M) for word in ("old", "new"))
    return Edit(name or first.group(1), re.search(r"^file: (.*)$", block, re.M).group(1), list(zip(olds, news)))


def read_edits(path):
    """The edits of a table, or the one of a file of must-fail."""
    path = pathlib.Path(path)
    text = path.read_text().strip()
    if path.suffix == ".edit":
        return [read_block(text, path.stem)]
    return [read_block(block) for block in re.split(r"\n\n+", text) if "\nfile: " in block]


def apply(edit, crate):
    """Changes the edit's file of the crate in that folder; what stood there before, to be put back."""
    path = pathlib.Path(crate) / edit.file
    before = after = path.read_text()
    for old, new in edit.changes:
        if after.count(old) != 1:
            raise SystemExit(f"{edit.name}: its old text does not stand once in {path}")
        after = after.replace(old, new)
    path.write_text(after)
    return before
