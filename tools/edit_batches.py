"""Which edits one check can try together, and what it says of each.

Edits go together where each changes the body of a function of its own. Of a function that is called the prover takes what its
contract says, so no such change can make a goal of another function fail: where the prover can't show a goal of a function that
one of them changed, it refuses that edit. That a function calls one which isn't proved is no goal of its own, and doesn't
count. What a check doesn't say so plainly is left to a check of its own.
"""
import collections
import re

import rt_inside

# The lines that an edit changes in a file, by number; and the function in whose body they stand: its name, its first line,
# which an attribute may be, and its last one.
Change = collections.namedtuple("Change", "edit path lines function first last")

FUNCTION = re.compile(r"(\s*)(?:pub(?:\([a-z]+\))? )?(?:unsafe |const )*fn (\w+)")
ATTRIBUTE = re.compile(r"\s*#\[")
CLAUSE = re.compile(r"\s*(?:requires|ensures|ghost|where)\b")
# What is said of a line that names what an edit took away, and so says little of the contract.
NAMES = re.compile(r"has no field|is not in scope|has no `|was not admitted")
# Most edits of one check.
MOST = 16


def function_at(lines, number):
    """Name, first and last line of the function in whose body a line stands, where it stands in one."""
    for first in range(number, -1, -1):
        begins = FUNCTION.match(lines[first])
        if begins:
            break
    else:
        return None
    indent, name = begins[1], begins[2]
    last = next((at for at in range(first + 1, len(lines)) if lines[at] in (indent + "}", indent + "{}")), None)
    body = next((at for at in range(first, number)
                 if lines[at].rstrip().endswith("{") and not CLAUSE.match(lines[at])), None)
    while first > 0 and ATTRIBUTE.match(lines[first - 1]):
        first -= 1
    return (name, first, last) if last and body is not None and body < number < last else None


def change_of(edit, folder):
    """The change that an edit is, where it is one in the body of one function; else None."""
    texts = rt_inside.texts_of(edit, folder)
    if not texts or len(texts) != 1:
        return None
    path, text = next(iter(texts.items()))
    with open(f"{folder}/{path}", encoding="utf-8") as file:
        before = file.read().split("\n")
    after = text.split("\n")
    if not path.startswith("src/") or len(before) != len(after):
        return None
    changed = {at: line for at, line in enumerate(after) if line != before[at]}
    places = {function_at(before, at) for at in changed}
    place = places.pop() if len(places) == 1 else None
    if not place:
        return None
    return Change(edit, path, changed, *place)


def function_of(change):
    """The function whose body an edit changes, by its file and its first line."""
    return change.path, change.first


def batches(edits, folder):
    """Lists of changes that go together, of two at least, and the edits that go into none."""
    changes = [change_of(edit, folder) for edit in edits]
    lists = []
    for change in filter(None, changes):
        room = next((it for it in lists if len(it) < MOST and all(function_of(change) != function_of(other) for other in it)),
                    None)
        if room is None:
            lists.append([change])
        else:
            room.append(change)
    alone = [edit for edit, change in zip(edits, changes) if not change]
    return [it for it in lists if len(it) > 1], alone + [it[0].edit for it in lists if len(it) == 1]


def texts_with(changes, folder):
    """The texts of the changed files, by their paths in the crate."""
    texts = {}
    for change in changes:
        if change.path not in texts:
            with open(f"{folder}/{change.path}", encoding="utf-8") as file:
                texts[change.path] = file.read().split("\n")
        for at, line in change.lines.items():
            texts[change.path][at] = line
    return {path: "\n".join(lines) for path, lines in texts.items()}


def refused_in(crate, changes, said):
    """Of these changes those that the prover refuses, by what it said of all: the edit, and the line that tells it."""
    lines = said.split("\n")
    if any(rt_inside.is_unread(line, {change.path for change in changes}) for line in lines):
        return {}
    failed = [line.split(": ")[0][3:] for line in lines if line.startswith("fn ") and not line.endswith(": proved")]
    found = {}
    for change in changes:
        told = next((line for line in lines if tells_of(change, line)), None)
        if told and any(name_in(crate, change).fullmatch(name) for name in failed):
            found[change.edit] = told
    return found


def name_in(crate, change):
    """What the prover calls the function whose body an edit changes."""
    module = "::".join([crate.name, *change.path[len("src/"):-len(".rt")].split("/")]).removesuffix("::lib")
    return re.compile(rf"{module}(::[A-Z]\w*)?::{change.function}")


def tells_of(change, line):
    """Whether a line tells a goal of that function that isn't shown: at the function, or in the files of its proof."""
    at = re.match(rf"(?:note: )?{re.escape(change.path)}:(\d+):\d+: ", line)
    if at:
        return change.first < int(at[1]) <= change.last + 1
    folder = change.path[len("src/"):-len(".rt")].removesuffix("lib")
    proof = re.match(rf"\./proofs/{re.escape(folder)}/?(?:[A-Z]\w*/)?{change.function}/\w+\.antt:\d+:\d+: error: ", line)
    return bool(proof) and not NAMES.search(line)
