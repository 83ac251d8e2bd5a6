"""What tools/try-edits, tools/prove and tools/make-page take of the insides of the command `rt`.

`rt` tries the edits of must-fail/ alone. To judge other edits as the gate does, this page loads the program `rt` as a
module, and calls its functions. It is the one place that knows them, and was written for rattle-kit-13f and rattle-kit-13b.
It relies on:

  KIT                                     the folder of the kit, with the file KIT-ID, whose first line names it
  rtlib.PARTS                             the folders of a crate that a check reads
  rtlib.crates_below(top)                 the crates below a folder, lowest first; of each `name`, `folder`, `below()`
                                          and `build_rlib(flags, anew)`, whose status is 0 where the library is built;
                                          `is_built()`, `rlib`, the library's folder, and `stamp()`, a sum of all that it
                                          is made from, which out/rlib/stamp has once it stands
  rtlib.files_of(folder)                  the files of a crate that a check reads
  rtlib.guarded()                         has all that is started end with this program
  rtlib.lock(crates)                      waits until no other `rt` works in these crates' folders, and keeps it out while what
                                          it returns is open
  share_work(is_alone)                    has builds begin with what other checkouts on this machine kept, where that serves;
                                          the earlier kit has no such function, and keeps nothing of other checkouts
  read_edit(edit, folder)                 the texts of the files that an edit changes, and else why it can't be applied
  unread(line, changed)                   whether a line says that a file of these paths could not be read
  checked(crate, texts, flags, kept)      a finished check, over what `kept` holds, with `returncode` and `stdout`
  must_fail(crate, edit, flags, kept)     what a try comes to, and what to say. It comes to REFUSED, AT_LIMIT or something
                                          else; in the earlier kit, which has neither name, to True where it is refused
  processors(), free()                    processors, and bytes of free memory

Where the kit differs, the program ends with one line that says in what.
"""
import contextlib
import functools
import importlib.machinery
import importlib.util
import inspect
import os
import shutil
import sys

WRITTEN_FOR = "rattle-kit-13f and rattle-kit-13b"
NAMES = ("KIT", "rtlib.PARTS")
# Each function with the names of its first parameters.
FUNCTIONS = {
    "rtlib.crates_below": ("top",),
    "rtlib.Crate.below": ("self",),
    "rtlib.Crate.build_rlib": ("self", "flags", "anew"),
    "rtlib.Crate.is_built": ("self",),
    "rtlib.Crate.stamp": (),
    "rtlib.files_of": ("folder",),
    "rtlib.guarded": (),
    "rtlib.lock": ("crates",),
    "read_edit": ("edit", "folder"),
    "unread": ("line", "changed"),
    "checked": ("crate", "texts", "flags", "kept"),
    "must_fail": ("crate", "edit", "flags", "kept"),
    "processors": (),
    "free": (),
}
FLAGS = ["--jobs", "1"]
# Bytes of memory that are reckoned for a check. In the gate none was seen to take over 4.1 GB; once one took some 7.7, of a
# wrong program in a trial.
BYTES_PER_CHECK = 5_000_000_000


def stop(why):
    sys.exit(f"{os.path.basename(sys.argv[0])}: {why} (tools/rt_inside.py was written for {WRITTEN_FOR})")


def found(module, path):
    """What stands in the module under a path of names, or None."""
    for name in path.split("."):
        module = getattr(module, name, None)
    return module


def parameters(function):
    return tuple(inspect.signature(inspect.unwrap(function)).parameters)


def loaded():
    """The module that the command `rt` is, once it has what this page relies on."""
    path = shutil.which("rt")
    if not path:
        stop("the command rt isn't there")
    sys.dont_write_bytecode = True
    loader = importlib.machinery.SourceFileLoader("rt_main", os.path.realpath(path))
    module = importlib.util.module_from_spec(importlib.util.spec_from_loader("rt_main", loader))
    sys.modules["rt_main"] = module
    try:
        loader.exec_module(module)
    except Exception as fault:
        stop(f"{path} can't be loaded as a Python module: {fault}")
    for name in NAMES:
        if found(module, name) is None:
            stop(f"{path} has no {name}")
    for name, wanted in FUNCTIONS.items():
        function = found(module, name)
        if not callable(function):
            stop(f"{path} has no function {name}")
        if parameters(function)[:len(wanted)] != wanted:
            stop(f"{path} has {name}({', '.join(parameters(function))}), and not {name}({', '.join(wanted)})")
    return module


rt = loaded()
PARTS = rt.rtlib.PARTS
REFUSED = [outcome for name in ("REFUSED", "AT_LIMIT") if (outcome := getattr(rt, name, None)) is not None] or [True]


def kit():
    """The line that names the kit."""
    with open(f"{rt.KIT}/KIT-ID", encoding="utf-8") as file:
        return file.read().strip()


def crates(top=None):
    """The crates below a folder, the current one if none is named, lowest first: each has `name`, `folder` and `below()`."""
    return rt.rtlib.crates_below(top or os.getcwd())


def why_unapplied(edit, folder):
    """Why an edit can't be applied to the crate in this folder, or None."""
    return rt.read_edit(edit, folder)[1]


def texts_of(edit, folder):
    """The texts of the files that an edit changes, by their paths in the crate, or None where it can't be applied."""
    return rt.read_edit(edit, folder)[0]


def is_unread(line, changed):
    """Whether a line says that the prover could not read one of these changed texts."""
    return rt.unread(line, changed)


def said_of(crate, texts, kept):
    """What the prover says of a crate with these texts in place of its own, where it refuses it; None where it doesn't."""
    ran = rt.checked(crate, texts, FLAGS, kept)
    lines = ran.stdout.rstrip("\n").split("\n")
    return ran.stdout if ran.returncode == 1 and lines[-1].startswith("logic=not-proved") else None


def is_built(crate):
    """Builds a crate's library where it doesn't stand, and says whether it stands now."""
    return crate.build_rlib(FLAGS, anew=False) == 0


def keep_sums():
    """Has each crate keep the sum of all that its library is made from: nothing of that changes any more. `rt` forms it anew
    wherever it is asked for, out of all crates below too, and for the upper crates that takes minutes."""
    rt.rtlib.Crate.stamp = functools.cache(rt.rtlib.Crate.stamp)


def is_of_its_text(crate):
    """Whether a library stands that was built since the crate's files were last written."""
    if not os.path.isdir(crate.rlib):
        return False
    built = os.path.getmtime(crate.rlib)
    return all(os.path.getmtime(file) < built for file in rt.rtlib.files_of(crate.folder))


def take_library(crate, other):
    """Gives a crate the library that the gate built of the same text in another checkout, where the crate has none and those
    below it have theirs. The gate puts no stamp beside what it builds, since its libraries hold statements alone, which fit
    only the libraries that they were built over: so all of them have to come from one checkout."""
    if crate.is_built() or not is_of_its_text(other) or not all(below.is_built() for below in crate.below()):
        return
    if crate.stamp() == other.stamp():
        shutil.rmtree(f"{crate.folder}/out/rlib", ignore_errors=True)
        shutil.copytree(f"{other.folder}/out/rlib", f"{crate.folder}/out/rlib")
        with open(f"{crate.folder}/out/rlib/stamp", "w", encoding="utf-8") as file:
            file.write(crate.stamp())


def proof_of(crate, kept):
    """Proves a crate as it stands, over what the folder `kept` holds. Whether it is proved, and the last line said."""
    ran = rt.checked(crate, {}, FLAGS, kept)
    return ran.returncode == 0, ran.stdout.rstrip("\n").split("\n")[-1]


def refusal_of(crate, edit, kept=None):
    """Whether the prover refuses the crate with an edit, as the gate counts it, and what to say."""
    outcome, said = rt.must_fail(crate, edit, FLAGS, kept)
    return outcome in REFUSED, said.replace("must-fail ", "", 1).replace(".edit: ", ": ", 1)


def end_together():
    """Has all that is started end with this program."""
    rt.rtlib.guarded()


def checks_at_once():
    """How many checks go side by side: as many as RT_JOBS says, or else as the processors and the free memory allow."""
    given = os.environ.get("RT_JOBS", "")
    if given.isdigit() and int(given):
        return int(given)
    return max(min(rt.processors(), int(rt.free() / BYTES_PER_CHECK)), 1)


# What tools/prove takes.


def files_of(crate):
    """The files of a crate that a check reads."""
    return rt.rtlib.files_of(crate.folder)


@contextlib.contextmanager
def alone_in(crates):
    """Keeps every other `rt` out of the folders of these crates, and has them built over what is kept, as `rt all check` does."""
    held = rt.rtlib.lock(crates)
    if found(rt, "share_work"):
        rt.share_work(True)
    try:
        yield
    finally:
        for folder in held:
            os.close(folder)


def build(crate, jobs, said):
    """Proves a library with so many jobs, and builds it, where it doesn't stand. What the prover says goes to the file `said`.
    Whether the library stands."""
    crate.out = said
    return crate.build_rlib(["--jobs", str(jobs)], anew=False) == 0


# What tools/make-page takes.


def have_libraries(crate):
    """Whether each library below a crate stands, and was put there since its files were last written, as after `rt ci`."""
    return all(map(is_of_its_text, crate.below()))
