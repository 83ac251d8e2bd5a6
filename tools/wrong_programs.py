"""The wrong programs of a crate: where they stand, whether they can be applied, and what tells that they were refused.

  must-fail/NAME.edit   those that the gate tries, each an edit of the kit's form (`rt help`)
  edits.toml            all others. Each change is a table below a line [[NAME]], and the changes of one NAME stand
                        together. A change has three keys, each of one line: `file`, a path below src/, specs/ or
                        proofs/; `old`, a text that stands there just once, when the changes above it are made; and
                        `new`, the text that takes its place
  tried.txt             that the prover refused all of edits.toml: how many, a sum over them and over the crate's src
                        (without its tests), specs and proofs, and the toolchain

The sum is over what edits.toml says, however it is laid out. It covers neither the crates below nor the toolchain: a
kit of another name is taken for the same where its logic is.
"""
import hashlib
import itertools
import os
import re
import sys
import tomllib

import rt_inside

# The keys of a change, in the order of the lines of an edit.
KEYS = ("file", "old", "new")
HEADER = re.compile(r"^\[\[(.*)\]\]$", re.MULTILINE)
NAME = re.compile(r"\w+", re.ASCII)
LINE_OF_EDIT = re.compile(r"(file: \S|old: .|new:)")


def is_change(value):
    """Whether a value of edits.toml is a change."""
    return isinstance(value, dict) and sorted(value) == sorted(KEYS) \
        and all(isinstance(text, str) and "\n" not in text for text in value.values())


def is_program(name, changes):
    """Whether a name and a value of edits.toml are a wrong program."""
    return bool(NAME.fullmatch(name)) and isinstance(changes, list) and all(map(is_change, changes))


def others(folder):
    """The wrong programs of edits.toml: under each name its changes. Stops where the file isn't of the form."""
    path = f"{folder}/edits.toml"
    if not os.path.isfile(path):
        return {}
    with open(path, encoding="utf-8") as file:
        text = file.read()
    try:
        found = tomllib.loads(text)
    except tomllib.TOMLDecodeError as fault:
        sys.exit(f"try-edits: {os.path.relpath(path)}: {fault}")
    places = [name for name, _ in itertools.groupby(HEADER.findall(text))]
    for name in places + list(found):
        if places.count(name) != 1 or not is_program(name, found.get(name)):
            sys.exit(f"try-edits: {os.path.relpath(path)}: {name} isn't of the form (tools/wrong_programs.py)")
    return found


def of_the_gate(folder):
    """The paths of the edits of must-fail/, by name."""
    inside = f"{folder}/must-fail"
    names = sorted(os.listdir(inside)) if os.path.isdir(inside) else []
    return [f"{inside}/{name}" for name in names if name.endswith(".edit")]


def written(folder, room):
    """The paths of edits that are written into a new folder: one for each wrong program of edits.toml."""
    os.makedirs(room)
    paths = []
    for name, changes in others(folder).items():
        paths.append(f"{room}/{name}.edit")
        with open(paths[-1], "w", encoding="utf-8") as file:
            file.writelines(f"{key}: {change[key]}\n" for change in changes for key in KEYS)
    return paths


def name_of(edit):
    """The name of the wrong program that an edit's path tells."""
    return os.path.basename(edit).removesuffix(".edit")


def fault_of(edit, folder):
    """Why an edit can't be applied to the crate, or None."""
    with open(edit, encoding="utf-8", errors="replace") as file:
        strays = [line for line in file.read().split("\n") if line and not LINE_OF_EDIT.match(line)]
    if strays:
        return f"a line is none of file:, old: and new: {strays[0]!r}"
    return rt_inside.why_unapplied(edit, folder)


def sum_of(folder):
    """A sum of all that decides whether those of edits.toml are refused, but the crates below."""
    programs = sorted((name, [[change[key] for key in KEYS] for change in changes])
                      for name, changes in others(folder).items())
    found = hashlib.sha256(repr(programs).encode())
    for part in ("src", "specs", "proofs"):
        for at, folders, names in os.walk(f"{folder}/{part}"):
            folders[:] = sorted(name for name in folders if name != "tests")
            for name in sorted(names):
                if name != "tests.rt":
                    path = f"{at}/{name}"
                    with open(path, "rb") as file:
                        found.update(repr((os.path.relpath(path, folder), file.read())).encode())
    return found.hexdigest()


def tried_text(folder):
    """What tried.txt says of a crate of which all of edits.toml were refused."""
    return f"refused {len(others(folder))}\nsum {sum_of(folder)}\ntoolchain {rt_inside.kit()}\n"


def without_kit(text):
    """A text of tried.txt without the kit's name. Its logic stays: kits of one logic prove the same, so what one of
    them was seen to refuse is none the other could prove."""
    return re.sub(r"^toolchain .* logic ", "toolchain logic ", text, flags=re.MULTILINE)


def is_tried(folder):
    """Whether tried.txt tells of the crate as it stands."""
    path = f"{folder}/tried.txt"
    if not os.path.isfile(path):
        return False
    with open(path, encoding="utf-8") as file:
        return without_kit(file.read()) == without_kit(tried_text(folder))


def note_tried(folder, top):
    """Notes at the top that all of edits.toml were refused of the crate in this folder, a copy."""
    with open(f"{top}/tried.txt", "w", encoding="utf-8") as file:
        file.write(tried_text(folder))
