"""Puts the page together from the files of web/: page.html, page.css and the program, which are the .mjs files. Module and
examples aren't in it yet: `tools/make-page` puts these at its placeholders.

A file of the program becomes one function, whose names no other file sees but by import. So only these forms of import and
export are known, each at the beginning of a line: `import { a, b } from "./file.mjs";`, and `export` before `function`,
`async function`, `class` or `const`."""
import re

IMPORT = re.compile(r'^import \{([^}]*)\} from "\./(\w+)\.mjs";$', re.MULTILINE)
NAMES = re.compile(r"\s*\w+(?:\s*,\s*\w+)*\s*,?\s*")
EXPORT = re.compile(r"^export ((?:async )?(?:function|class|const) (\w+))", re.MULTILINE)
# the file that opens the page, which needs all others
FIRST = "page"


class Refused(Exception):
    """Why the page can't be put together."""


def files_below(folder, name, found, above=()):
    """The files that this one needs and this one itself, each behind those that it needs, as names with their texts."""
    if name in above:
        raise Refused(f"web/{name}.mjs needs itself")
    if name in found:
        return
    text = (folder / f"{name}.mjs").read_text(encoding="utf-8")
    for _, other in IMPORT.findall(text):
        files_below(folder, other, found, (*above, name))
    found[name] = text


def function_of(name, text):
    """A file as a constant that has what it exports."""
    renamed = [given for given, _ in IMPORT.findall(text) if not NAMES.fullmatch(given)]
    if renamed:
        raise Refused(f"web/{name}.mjs: import {{{renamed[0]}}}: names alone can be imported")
    names = ", ".join(it for _, it in EXPORT.findall(text))
    body = EXPORT.sub(r"\1", IMPORT.sub(r"const {\1} = in_\2;", text))
    if re.search(r"^(?:import|export)\b", body, re.MULTILINE):
        raise Refused(f"web/{name}.mjs: an import or export of another form")
    return f"const in_{name} = (() => {{\n{body}return {{ {names} }};\n}})();\n"


def program_of(folder):
    """The program of the page as one script."""
    found = {}
    files_below(folder, FIRST, found)
    unused = {it.stem for it in folder.glob("*.mjs")} - set(found)
    if unused:
        raise Refused(f"the page doesn't use web/{sorted(unused)[0]}.mjs")
    return '"use strict";\n' + "".join(function_of(name, text) for name, text in found.items())


def put(text, placeholder, content):
    """A text with something at its one placeholder."""
    if text.count(placeholder) != 1:
        raise Refused(f"{placeholder} doesn't stand there once")
    return text.replace(placeholder, content)


def page_of(folder):
    """The page with its style and its program; at `/*examples*/[]` and `/*module*/""` nothing is put yet."""
    program = program_of(folder)
    if "</script" in program:
        raise Refused("the program ends its own script")
    page = (folder / "page.html").read_text(encoding="utf-8")
    page = put(page, "/*style*/\n", (folder / "page.css").read_text(encoding="utf-8"))
    return put(page, "/*program*/\n", program)
