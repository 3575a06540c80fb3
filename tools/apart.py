"""Copies of crates in a temporary folder apart from the checkout, in which rt works without touching what stands here."""
import contextlib, functools, importlib.machinery, importlib.util, os, re, shutil, subprocess, sys, tempfile


def listed():
    """The lines of crates.txt by crate, in its order: the whole line, and the names after the colon."""
    found = {}
    for line in open("crates.txt", encoding="utf-8"):
        line = line.partition("#")[0].strip()
        if line:
            before, _, after = line.partition(":")
            found[before.split()[0]] = (line, after.split())
    return found


def with_those_below(names):
    """These crates and all that they are built on, in the order of crates.txt."""
    lines, wanted, left = listed(), set(), list(names)
    while left:
        name = left.pop()
        if name in lines and name not in wanted:
            wanted.add(name)
            left += lines[name][1]
    return [name for name in lines if name in wanted]


@contextlib.contextmanager
def copy_of(names, edits):
    """A repository of these crates and those below them, without what rt made and without their wrong programs; `edits` says by crate
    which files are its must-fail edits there. The folder is removed afterwards."""
    with tempfile.TemporaryDirectory(prefix="merino-") as room:
        # the top of a repository, as rt looks for it
        os.mkdir(f"{room}/.git")
        lines = listed()
        with open(f"{room}/crates.txt", "w", encoding="utf-8") as list_of_crates:
            for name in with_those_below(names):
                list_of_crates.write(lines[name][0] + "\n")
                shutil.copytree(f"crates/{name}", f"{room}/crates/{name}", ignore=left_out)
                for edit in edits.get(name, []):
                    os.makedirs(f"{room}/crates/{name}/must-fail", exist_ok=True)
                    shutil.copy(edit, f"{room}/crates/{name}/must-fail")
        shutil.copy("HANDLES", room)
        yield room


def left_out(folder, names):
    return [it for it in names if it in ("out", "must-fail", "audit")] if re.fullmatch(r"crates/[^/]+", folder) else []


@functools.lru_cache(maxsize=None)
def kit():
    """The kit's folder, and rt's own account of crates and of the compiler's words."""
    folder = os.path.dirname(os.path.dirname(os.path.realpath(shutil.which("rt"))))
    loader = importlib.machinery.SourceFileLoader("rtlib", f"{folder}/bin/rtlib.py")
    made = importlib.util.module_from_spec(importlib.util.spec_from_loader("rtlib", loader))
    sys.modules["rtlib"] = made
    loader.exec_module(made)
    return folder, made


def compiler(room, name, verb, *flags, **how):
    """Calls the kit's compiler for a crate of a copy, over the libraries that rt has built there, as rt itself calls it."""
    _, rtlib = kit()
    crate = next(it for it in rtlib.crates_below(room) if it.name == name)
    words = [*rtlib.guarded(), rtlib.RATTLE, verb, *crate.words(["--jobs", "1"], keeps=False), *flags]
    return subprocess.run(words, cwd=crate.folder, stdin=subprocess.DEVNULL, **how)
