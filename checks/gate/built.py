"""What the checks run, built from the files as they stand: the library for C, the programs and what is loaded before them."""
import functools
import hashlib
import os
import shutil
import subprocess
from pathlib import Path

# The library for C and the programs, by their crates, and the Makefile's rules that build them.
BUILT = {
    "hayro_ccitt_c": "libhayro_ccitt_c.a",
    "faxrows": "faxrows",
    "faxpack": "faxpack",
    "test_streams": "test_streams",
    "test_files": "test_files",
    "test_outputs": "test_outputs",
    "faxconv": "faxconv",
}
RULES = {
    "hayro_ccitt_c": "prove-library",
    "faxrows": "prove-programs",
    "faxpack": "prove-programs",
    "test_streams": "prove-test_streams",
    "test_files": "prove-test_files",
    "test_outputs": "prove-test_outputs",
    "faxconv": "prove-programs",
}
# How many builds of each are kept on this machine.
MOST = 6


def with_libraries(crate, root="."):
    """A crate and the crates of the repository that it is built from: those that crates.txt names for it, and in turn those for them."""
    named = {}
    with open(f"{root}/crates.txt", encoding="utf-8") as file:
        for line in file:
            name, _, libraries = line.partition(":")
            if not line.startswith("#"):
                named[name.split()[0]] = libraries.split()
    found, left = set(), [crate]
    while left:
        name = left.pop()
        if name in named and name not in found:  # the others are the kit's
            found.add(name)
            left += named[name]
    return sorted(found)


def files_below(path):
    if os.path.isfile(path):
        yield path
    for folder, _, names in os.walk(path):
        yield from (f"{folder}/{name}" for name in names)


def sum_of(*paths, root=".", also=""):
    """A sum of files, and of all files below folders: their names and what they hold."""
    total = hashlib.sha256(also.encode())
    for file in sorted(file for path in paths for file in files_below(os.path.join(root, path))):
        with open(file, "rb") as it:
            total.update(f"{file[len(root):]}\0{os.fstat(it.fileno()).st_size}\0".encode() + it.read())
    return total.hexdigest()


@functools.cache
def kit():
    return subprocess.run(["rt", "version"], capture_output=True, text=True, check=True).stdout


def sources(crate, root="."):
    """A sum of all that a crate is built from: its files, those of the crates below it, and the kit."""
    parts = [f"crates/{name}/{part}" for name in with_libraries(crate, root) for part in ("src", "specs", "proofs")]
    return sum_of("crates.txt", *parts, root=root, also=kit())


def is_made_from(path, made_from):
    """Whether a file is what was noted to be made from files with this sum."""
    note = f"{path}.made-from"
    if not os.path.exists(path) or not os.path.exists(note):
        return False
    return Path(note).read_text(encoding="utf-8") == f"{made_from} {sum_of(path)}"


def note(path, made_from):
    Path(f"{path}.made-from").write_text(f"{made_from} {sum_of(path)}", encoding="utf-8")


def place(crate):
    """Where a crate's library or program is built."""
    return f"crates/{crate}/out/{BUILT[crate]}"


def have(crate):
    """Builds a crate's library or program, unless the one that is there, or one that an earlier run on this machine kept, is built from
    the same files. A program that is there isn't built again, since checks may be running it."""
    made_from, built = sources(crate), place(crate)
    cache = os.environ.get("XDG_CACHE_HOME") or os.path.expanduser("~/.cache")
    kept = f"{cache}/hayro_ccitt/built/{BUILT[crate]}-{made_from}"
    if is_made_from(built, made_from):
        return
    if os.path.exists(kept):
        put(kept, built)
    else:
        made_by(RULES[crate])
        assert sources(crate) == made_from, f"a source of {crate} changed while it was built"
        put(built, kept)
        others = sorted((f"{cache}/hayro_ccitt/built/{it}" for it in os.listdir(os.path.dirname(kept)) if it.startswith(BUILT[crate])), key=os.path.getmtime)
        for old in others[:-MOST]:
            os.remove(old)
    note(built, made_from)


def put(path, own):
    """Puts a copy of a program or library in its place. It is written under another name first: a file that is being written can't be run,
    and one that is running can't be written."""
    os.makedirs(os.path.dirname(own), exist_ok=True)
    part = f"{own}.{os.getpid()}"
    shutil.copy(path, part)
    os.replace(part, own)


def made_by(*words):
    """Runs `make`."""
    done = subprocess.run(["make", *words], capture_output=True, text=True, errors="replace", check=False)
    assert done.returncode == 0, done.stdout[-2000:] + done.stderr[-2000:]


# What `preload` compiles for programs that an emulator runs, which sets their variables by one of its own.
COMPILER, IS_EMULATED = "gcc", False


def preload(folder, source):
    """A file of the checks in C, compiled to be loaded before a program."""
    path = f"{folder}/{os.path.basename(source)}.so"
    subprocess.run([COMPILER, "-shared", "-fPIC", "-o", path, f"checks/{source}.c", "-ldl"], check=True)
    return path


def loading(loaded, **variables):
    """The environment in which a program is run with such a file loaded, and with these variables for it."""
    by = {"QEMU_SET_ENV": f"LD_PRELOAD={loaded}"} if IS_EMULATED else {"LD_PRELOAD": loaded}
    return {**os.environ, **by, **{name: str(value) for name, value in variables.items()}}


def refused_in_turn(shim, words, data):
    """The status, the output and the errors of a command whose first allocation is refused, whose second one is, and so on, and of one
    without. The shim is c/refuse."""
    for number in range(1, 1000):
        done = subprocess.run(words, input=data, capture_output=True, env=loading(shim, REFUSE=number), check=False, timeout=60)
        yield done.returncode, done.stdout, done.stderr.replace(b"refused\n", b"", 1)
        if b"refused\n" not in done.stderr:
            return
    raise AssertionError("it never ran without a refusal")


@functools.cache
def program_of(crate):
    """The path of a crate's program, built from the files as they stand."""
    have(crate)
    return os.path.abspath(place(crate))


def answer(crate, data, *words):
    """What a crate's program writes of its input, and its status."""
    done = subprocess.run([program_of(crate), *words], input=data, capture_output=True, check=False, timeout=600)
    assert not done.stderr, done.stderr[:300]
    return done.stdout, done.returncode


def said(crate, records, *words):
    """What it writes of records, of which it can't end otherwise than well."""
    told, status = answer(crate, b"".join(records), *words)
    assert status == 0, status
    return told
