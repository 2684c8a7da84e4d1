"""Checks of what users are shown: each command of the README, of INSTALL.md and of docs/USING.md, in the order of the page and in a
copy of the repository in which nothing is made yet but what is proved; the programs of examples/; and the Cargo package. What needs a
tool that isn't installed is left out and reported."""
import importlib.util
import itertools
import os
import re
import shutil
import subprocess
import sys
import tempfile
import threading

import corpus
from c import c_library
from gate.built import BUILT, made_by, place
from gate.skipped import interpreter, leave_out

PAGES = ["README.md", "INSTALL.md", "docs/USING.md"]
# Tools that a command may need and that need not be installed.
TOOLS = ["cargo", "dpkg-deb", "pkg-config", "ppm2tiff", "tiffcp", "tiffdump", "gs", "img2pdf", "pdfimages", "strings"]
PACKAGE = "bindings/rust"
# The commands that take minutes or change the system, and the quick form of each that is run here: what is proved is built, the tests are
# what runs this check, and packages are installed into a folder. What they print isn't on the page.
QUICK = {
    "make test": "make -n test | grep '^bash test.sh$'",
    "make check": "make -s RT=true check | grep 'as they should be'",
    "make JOBS=1 >log 2>&1": "make -s RT=true JOBS=1",
    "make install PREFIX=$HOME/.local": "make -s RT=true install PREFIX=$HOME/.local",
    "make dist": "make -s dist",
    "apt-get install ./hayro-ccitt_*.deb": "dpkg-deb -x ./hayro-ccitt_*.deb root && root/usr/bin/faxrows --version",
    "tar xzf hayro_ccitt-*-src.tar.gz && make -C hayro_ccitt-*-src install PREFIX=$HOME/.local":
        "tar xzf hayro_ccitt-*-src.tar.gz && make -s -C hayro_ccitt-*-src install PREFIX=$HOME/.local",
    **{
        f"python3 -m pip install {package}": f"python3 -m pip install -q --no-index --upgrade --target site {package}"
        for package in ("hayro_ccitt-*.whl", "hayro_ccitt-?.?.?.tar.gz")
    },
}
# Commands after which the next ones run elsewhere, or with other variables.
STAYS = ("cd ", "export ")
# The last lines that a command may print whose status isn't 0.
FAULTS = ("error: ", "violation ", "faxconv: ")


def make():
    """The library and the programs in build/, of what is proved and built by now."""
    c_library.build()
    made_by("RT=true")


def copied(folder):
    """A copy of the files that git knows, and of what is proved and built."""
    c_library.build()
    listed = subprocess.run(
        ["git", "ls-files", "-z", "--cached", "--others", "--exclude-standard"], capture_output=True, text=True, check=True
    ).stdout.split("\0")
    proved = [place(crate) for crate in BUILT]
    for name in [*(name for name in listed if name and os.path.isfile(name)), *proved]:
        os.makedirs(os.path.dirname(f"{folder}/{name}"), exist_ok=True)
        shutil.copy2(name, f"{folder}/{name}")


def commands(page):
    """Each command of a page's blocks, and the text below it."""
    with open(page, encoding="utf-8") as file:
        whole = file.read()
    found = 0
    for block in re.findall(r"^```\n(\$ .*?)^```$", whole, re.MULTILINE | re.DOTALL):
        for part in re.split(r"^\$ ", block, flags=re.MULTILINE)[1:]:
            first, *rest = part.splitlines(keepends=True)
            more = sum(1 for _ in itertools.takewhile(lambda line: line.startswith("> "), rest))
            yield "".join([first, *(line[2:] for line in rest[:more])]).rstrip("\n"), "".join(rest[more:])
            found += 1
    assert found == len(re.findall(r"^ *\$ ", whole, re.MULTILINE)), f"{page} has commands that aren't run"


def files_of_users(folder):
    """FILE.tif and FILE.pdf, for the commands that take a file of the user's, as far as the tools are installed."""
    steps = [
        ("ppm2tiff", "(printf 'P4\\n1240 1754\\n'; cat corpus/pictures/page) > FILE.pbm; ppm2tiff -c none FILE.pbm FILE.none"),
        ("tiffcp", "tiffcp -c g4 -r 1754 FILE.none FILE.tif"),
        ("img2pdf", "img2pdf FILE.tif -o FILE.pdf"),
    ]
    for tool, command in steps:
        if not shutil.which(tool):
            return
        subprocess.run(["bash", "-c", command], cwd=folder, check=True, capture_output=True)


def missing_tools(command):
    """The tools that a command needs and that aren't installed."""
    missing = [tool for tool in TOOLS if re.search(rf"(^|[|;&(]|&&|\$\() *{tool} ", command) and not shutil.which(tool)]
    if re.search(r"-m hayro_ccitt .*\.pdf", command) and not interpreter("pikepdf", "pypdf"):
        missing.append("pikepdf or pypdf")
    if " -m pip " in command and not importlib.util.find_spec("pip"):
        missing.append("pip")
    return missing


def outcomes(page, folder):
    """Each command, the text below it, and what it prints: None if it is left out because of a missing tool, or of a file that
    another such command would have made. What is printed for a user's file isn't on the page."""
    lost = []  # files, and fronts of the names of several
    before = []
    for command, text in commands(page):
        quick = QUICK.get(command, command)
        absent = [name for name in re.findall(r"out/[\w.-]+|FILE\.\w+", command) if not os.path.exists(f"{folder}/{name}")]
        if missing_tools(quick) or any(name.startswith(("FILE.", *lost)) for name in absent):
            lost += absent
            yield command, text, None
            continue
        environment = dict(os.environ)
        if "-m hayro_ccitt" in command:
            environment["PATH"] = f"{os.path.dirname(interpreter('pikepdf', 'pypdf') or sys.executable)}:{environment['PATH']}"
        if "$HOME" in command:
            environment["HOME"] = f"{folder}/home"
        done = subprocess.run(
            ["bash", "-c", "\n".join([*before, quick])], cwd=folder, stdout=subprocess.PIPE, stderr=subprocess.STDOUT, check=False,
            timeout=600, env=environment,
        )
        printed = done.stdout.decode(errors="replace")
        last = text.splitlines()[-1] if text else ""
        assert done.returncode == 0 or last.startswith(FAULTS), f"{page}: {command}\nends with status {done.returncode}\n{printed}"
        before += [command] * command.startswith(STAYS)
        yield command, text, text if "FILE." in command or quick != command else printed


def commands_of_the_pages():
    """Each command prints what is below it. Each quick form stands for a command of a page."""
    run = 0
    left_out = []
    with tempfile.TemporaryDirectory() as folder:
        copied(folder)
        files_of_users(folder)
        seen = set()
        for page in PAGES:
            for command, text, printed in outcomes(page, folder):
                seen.add(command)
                if printed is None:
                    left_out.append(command)
                    continue
                assert printed == text, f"{page}: {command}\nprints\n{printed}and not\n{text}"
                run += 1
    assert run > 0 and seen >= set(QUICK), set(QUICK) - seen
    print(f"  {run} commands run, {len(QUICK)} of them by a quick form")
    if left_out:
        absent = [tool for tool in TOOLS if not shutil.which(tool)]
        leave_out(f"{len(left_out)} commands of the pages", ", ".join(absent))


def damaged(data):
    """The data with a byte of it inverted, at three offsets, and cut short."""
    for part in (1, 2, 3):
        place = len(data) * part // 4
        yield data[:place] + bytes([data[place] ^ 0xFF]) + data[place + 1 :]
    yield data[: len(data) // 2]


def the_cargo_package():
    """Its cases, and its examples against the C program: on each strip with its first settings, whole and damaged."""
    if not shutil.which("cargo"):
        leave_out("the Cargo package", "cargo")
        return
    c_library.build()
    same = 0
    with tempfile.TemporaryDirectory() as folder:
        cargo = {**os.environ, "CARGO_TARGET_DIR": f"{folder}/target"}
        for words in (["test"], ["build", "--examples"]):
            words = ["cargo", *words, "--all-features", "--release", "--offline", "-q"]
            done = subprocess.run(words, cwd=PACKAGE, env=cargo, capture_output=True, text=True, check=False)
            assert done.returncode == 0, done.stdout[-2000:] + done.stderr[-2000:]
        examples = f"{folder}/target/release/examples"
        in_c = c_library.compiled(f"{folder}/strip_to_pbm", "examples/strip_to_pbm.c", c_library.LIBRARY)
        for name, strip, mode, columns, rows, settings, *_ in corpus.lines_of("manifest.tsv"):
            with open(f"corpus/{strip}", "rb") as file:
                data = file.read()
            limit, flags = settings.split(",")[0].split(":")
            for bytes_in in (data, *damaged(data)):
                whole = [pbm_by(tool, [mode, columns, limit, flags], bytes_in) for tool in (f"{examples}/strip_to_pbm", in_c)]
                assert whole[0] == whole[1], f"{name} {limit}:{flags}"
                by_rows = [pbm_by(tool, [mode, columns, rows, flags], bytes_in) for tool in (f"{examples}/rows_to_pbm", in_c)]
                by_rows[1] = filled_up(by_rows[1], int(columns), int(rows))
                assert by_rows[0] == by_rows[1], f"{name} {rows}:{flags}"
                same += 2
        rows_come_before_the_data_ends(f"{examples}/rows_to_pbm")
    assert same > 0
    print(f"  the stored cases, and {same} runs as in C")


def pbm_by(tool, words, data):
    """The status and the picture of an example."""
    done = subprocess.run([tool, *words], input=data, capture_output=True, check=False, timeout=60)
    return done.returncode, done.stdout


def filled_up(answer, columns, rows):
    """An answer whose picture has white rows below, up to this number."""
    status, picture = answer
    header, size, packed = picture.split(b"\n", 2)
    assert int(size.split()[1]) <= rows
    return status, b"%s\n%d %d\n" % (header, columns, rows) + packed.ljust((columns + 7) // 8 * rows, b"\0")


def rows_come_before_the_data_ends(example):
    """The example writes the rows of half a page's data before it gets the other half."""
    with open("corpus/strips/page/gs-g4", "rb") as file:
        data = file.read()
    with open("corpus/pictures/page", "rb") as file:
        picture = b"P4\n1240 1754\n" + file.read()
    words = [example, "g4", "1240", "1754", "b"]
    with subprocess.Popen(words, stdin=subprocess.PIPE, stdout=subprocess.PIPE) as running:
        impatient = threading.Timer(60, running.kill)
        impatient.start()
        running.stdin.write(data[: len(data) // 2])
        running.stdin.flush()
        early = running.stdout.read(len(picture) // 4)
        assert early == picture[: len(early)] and len(early) == len(picture) // 4
        running.stdin.write(data[len(data) // 2 :])
        running.stdin.close()
        assert early + running.stdout.read() == picture
        impatient.cancel()
    assert running.returncode == 0


CHECKS = [commands_of_the_pages, the_cargo_package]
