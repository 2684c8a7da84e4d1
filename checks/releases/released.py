"""Checks of what `make dist` makes: the same bytes in two folders, and each package, where the kit isn't: the command of the README
installs it, and it decodes a page. Also of the Python package, by pytest.

With PROVE=1 the crate of examples/rattle is proved, which takes a minute.
"""
import os
import re
import shlex
import shutil
import subprocess
import sys
import tempfile
from concurrent.futures import ThreadPoolExecutor
from pathlib import Path

from c import c_library
from gate.skipped import leave_out
from releases.installed import first_program

sys.path.insert(0, os.path.abspath("release"))
import assembly  # noqa: E402

# What the kit proves and compiles: it is copied, and not proved again.
PROVED = ["hayro_ccitt_c/out/libhayro_ccitt_c.a", *(f"{name}/out/{name}" for name in ("faxrows", "faxpack", "faxconv"))]
TOOLS = ["make", "cc", "objcopy", "objdump", "strip", "dpkg-deb", "tar", "rustfmt", "lintian"]
# A path without `rt`.
PATH = "/usr/sbin:/usr/bin:/sbin:/bin"
# Debian's other programs for fax data.
BESIDE = ["efax", "mgetty-fax", "netpbm"]
STRIP, PICTURE = "corpus/strips/page/gs-g4", "corpus/pictures/page"
DECODE = "faxconv -m g4 -w 1240 -r 1754 strip > page.pbm"
IN_PYTHON = (
    "python3 -c "
    + shlex.quote("import hayro_ccitt; open('page.pbm', 'wb').write(hayro_ccitt.decode(open('strip', 'rb').read(), 1240, 1754, k=-1).pbm())")
)
# Of each package the command that installs it, which is the README's, and the one that decodes a page.
TARBALL = ("tar xzf hayro_ccitt-*-linux-x86_64.tar.gz", f"hayro_ccitt-*-linux-x86_64/bin/{DECODE}")
DEB = ("apt-get install ./hayro-ccitt_*.deb", DECODE)
SOURCE = ("tar xzf hayro_ccitt-*-src.tar.gz && make -C hayro_ccitt-*-src install PREFIX=$HOME/.local", "hayro_ccitt-*-src/build/strip_to_pbm g4 1240 1754 b < strip > page.pbm")
WHEEL = ("python3 -m pip install hayro_ccitt-*.whl", IN_PYTHON)
PYTHON_SOURCE = ("python3 -m pip install hayro_ccitt-?.?.?.tar.gz", IN_PYTHON)
CRATE = (
    "tar xzf hayro-ccitt-0.5.0.crate",
    "cd hayro-ccitt-0.5.0/ && cargo run -q --offline --release --example strip_to_pbm -- g4 1240 1754 b < ../strip > ../page.pbm",
)
PROVED_CRATE = tuple(command.replace("hayro-ccitt-", "hayro-ccitt-proved-") for command in CRATE)
PACKAGES = {
    **{"tarball": TARBALL, "deb": DEB, "source": SOURCE},
    **{"wheel": WHEEL, "python-source": PYTHON_SOURCE, "crate": CRATE, "proved-crate": PROVED_CRATE},
}
# Those that cargo builds.
BY_CARGO = ("crate", "proved-crate", "python-source")
# Here nothing is installed into the system.
INSTEAD = {
    "deb": ("dpkg-deb -x hayro-ccitt_*.deb root", f"LD_LIBRARY_PATH=root/usr/lib/x86_64-linux-gnu root/usr/bin/{DECODE}"),
    **{
        name: (installs.replace("install", "install -q --no-index --target site"), f"PYTHONPATH=site {decodes}")
        for name, (installs, decodes) in {"wheel": WHEEL, "python-source": PYTHON_SOURCE}.items()
    },
}


def run(words, timeout=600, **more):
    done = subprocess.run(words, capture_output=True, text=True, check=False, timeout=timeout, shell=isinstance(words, str), **more)
    assert done.returncode == 0, f"{words}\n{done.stdout[-2000:]}{done.stderr[-2000:]}"
    return done.stdout


def made(folder, target="", environment=None):
    """The packages, made in a copy of the repository, for this machine or a target."""
    listed = run(["git", "ls-files", "-z", "--cached", "--others", "--exclude-standard"])
    names = [name for name in listed.split("\0") if name and os.path.isfile(name)]
    proved = [f"hayro_ccitt_c/out/libhayro_ccitt_c-{target}.a"] if target else PROVED
    for name in [*names, *(f"crates/{name}" for name in proved)]:
        os.makedirs(os.path.dirname(f"{folder}/{name}"), exist_ok=True)
        shutil.copy2(name, f"{folder}/{name}")
    run(["make", "-s", "RT=true", f"TARGET={target}"], cwd=folder, env=environment)
    run(["make", "-s", "dist", f"TARGET={target}"], cwd=folder, env=environment)
    return f"{folder}/build/{target}/dist"


def are_the_same(one, other):
    assert sorted(os.listdir(one)) == sorted(os.listdir(other)) and len(os.listdir(one)) == len(PACKAGES) + 1
    for name in os.listdir(one):
        with open(f"{one}/{name}", "rb") as first, open(f"{other}/{name}", "rb") as second:
            assert first.read() == second.read(), f"{name} differs between two folders"
    run(["sha256sum", "--quiet", "-c", "SHA256SUMS"], cwd=one)


def refused_without_its_changes(folder):
    """A version that CHANGELOG.md doesn't have isn't released."""
    with open(f"{folder}/CHANGELOG.md", encoding="utf-8") as file:
        text = file.read()
    with open(f"{folder}/CHANGELOG.md", "w", encoding="utf-8") as file:
        file.write(text.replace("\n## ", "\n## 99."))
    done = subprocess.run(["make", "-s", "dist"], cwd=folder, capture_output=True, text=True, check=False)
    assert done.returncode != 0 and "CHANGELOG.md has no version" in done.stderr, done


def same_object(folder):
    """The assembly of the source tarball is the object that the kit compiled."""
    run("tar xzf build/dist/hayro_ccitt-*-src.tar.gz && cc -c -o again.o hayro_ccitt-*-src/proved.s", cwd=folder)
    assert assembly.same_bytes(f"{folder}/build/proved.o", f"{folder}/again.o")


def toolchain():
    """The folder of cargo's toolchain, or None."""
    if not shutil.which("cargo"):
        return None
    found = run(["rustup", "which", "cargo"]).strip() if shutil.which("rustup") else shutil.which("cargo")
    return os.path.dirname(os.path.dirname(found))


def filled(folder, packages):
    """A folder with the packages and a strip."""
    shutil.copytree(packages, folder)
    shutil.copy(STRIP, f"{folder}/strip")
    return folder


def is_the_page(path, name):
    with open(PICTURE, "rb") as file:
        page = b"P4\n1240 1754\n" + file.read()
    with open(path, "rb") as file:
        assert file.read() == page, name


def installed(name, packages, folder, environment):
    """A package is installed in a folder of its own, and decodes a page."""
    here = filled(f"{folder}/{name}", packages)
    for command in INSTEAD.get(name, PACKAGES[name]):
        run(command, cwd=here, env={**environment, "HOME": f"{folder}/home"})
    is_the_page(f"{here}/page.pbm", name)


def compiled_as_the_tarball_says(folder, environment):
    """The header's first program is compiled by the lines of the tarball's README, with each of the libraries, and runs."""
    with open(next(Path(folder).glob("tarball/*/README")), encoding="utf-8") as file:
        static, *shared = [line.strip() for line in file if line.startswith("    ")]
    with open(f"{folder}/tarball/first.c", "w", encoding="utf-8") as file:
        file.write(first_program())
    for lines in ([static], shared) if shutil.which("pkg-config") else ([static],):
        assert run("\n".join([*lines, "./a.out"]), cwd=f"{folder}/tarball", env=environment) == "18\n", lines


def without_scripts(package, folder):
    """A Debian package without its maintainer's scripts, which a root with nothing in it can't run."""
    unpacked = f"{folder}/unpacked-{os.path.basename(package)}"
    run(["dpkg-deb", "-R", package, unpacked])
    for name in ("preinst", "postinst", "prerm", "postrm", "triggers"):
        Path(unpacked, "DEBIAN", name).unlink(missing_ok=True)
    run(["dpkg-deb", "-Znone", "-b", unpacked, f"{folder}/{os.path.basename(package)}"])
    return f"{folder}/{os.path.basename(package)}"


def beside_other_packages(package, folder):
    """dpkg unpacks the Debian package into a root that has Debian's other programs for fax data, which it refuses if a file is in two."""
    os.makedirs(f"{folder}/downloaded")
    done = subprocess.run(["apt-get", "download", *BESIDE], cwd=f"{folder}/downloaded", capture_output=True, check=False, timeout=600)
    if done.returncode != 0 or not shutil.which("dpkg"):
        leave_out(f"the Debian package beside {', '.join(BESIDE)}", "apt-get download", is_listed=False)
        return
    others = sorted(map(str, Path(folder, "downloaded").glob("*.deb")))
    assert len(others) == len(BESIDE), others
    root = f"{folder}/system"
    os.makedirs(f"{root}/var/lib/dpkg/updates")
    os.makedirs(f"{root}/var/lib/dpkg/info")
    Path(root, "var/lib/dpkg/status").touch()
    packages = [without_scripts(path, folder) for path in [*others, package]]
    run(["dpkg", f"--root={root}", "--force-depends", "--unpack", *packages])
    for name in ("efax", "fax", "g3topbm", "g32pbm", "faxconv", "fax2pbm"):
        assert os.path.lexists(f"{root}/usr/bin/{name}"), name


# A crate that depends on the crate `hayro-ccitt`, as a PDF renderer does, and a program that depends on both.
RENDERER = """
use hayro_ccitt::{decode, DecodeSettings, Decoder, DecoderContext, EncodingMode};

struct Rows(Vec<Vec<u32>>);

impl Decoder for Rows {
    fn push_row(&mut self, changes: &[u32]) {
        self.0.push(changes.to_vec());
    }
}

pub fn rows(data: &[u8]) -> Vec<Vec<u32>> {
    let mut context = DecoderContext::new(DecodeSettings {
        columns: 8,
        rows: 1,
        end_of_block: false,
        end_of_line: false,
        rows_are_byte_aligned: false,
        encoding: EncodingMode::Group4,
        strict: false,
    });
    let mut rows = Rows(Vec::new());
    decode(data, &mut rows, &mut context).unwrap();
    rows.0
}
"""
VIEWER = "fn main() { println!(\"{:?} {}\", renderer::rows(&[0x31, 0xC0]), hayro_ccitt::DecodeError::UnexpectedEof); }\n"


def in_the_place_of_the_crate(folder, environment):
    """The lines of the packages' pages put each in the place of the crate: `hayro-ccitt` in a program and in a renderer below it, and
    `hayro-ccitt-proved` in a program."""
    page = Path(folder, "crate/hayro-ccitt-0.5.0/README.md").read_text(encoding="utf-8")
    dependency, patch = re.findall(r"^```toml\n(.*?)^```$", page, re.MULTILINE | re.DOTALL)
    page = Path(folder, "proved-crate/hayro-ccitt-proved-0.5.0/README.md").read_text(encoding="utf-8")
    (proved,) = re.findall(r"^```toml\n(.*?)^```$", page, re.MULTILINE | re.DOTALL)
    renderer = 'renderer = { path = "../renderer" }\n'
    packages = {
        "crate/renderer": ('[dependencies]\nhayro-ccitt = "0.5"\n', "lib.rs", RENDERER),
        "crate/viewer": (f"[dependencies]\n{dependency}{renderer}{patch}", "main.rs", VIEWER),
        "proved-crate/renderer": (f"[dependencies]\n{proved}", "lib.rs", RENDERER),
        "proved-crate/viewer": (f"[dependencies]\n{proved}{renderer}", "main.rs", VIEWER),
    }
    for name, (lines, file, code) in packages.items():
        at = Path(folder, name)
        Path(at, "src").mkdir(parents=True)
        Path(at, "Cargo.toml").write_text(f'[package]\nname = "{at.name}"\nedition = "2021"\n{lines}', encoding="utf-8")
        Path(at, "src", file).write_text(code, encoding="utf-8")
        if at.name == "viewer":
            told = run(["cargo", "run", "-q", "--offline"], cwd=at, env=environment)
            assert told == "[[3, 5]] unexpected end of input\n", (name, told)


def refused_for_other_targets(folder, environment):
    """For a target that the library isn't compiled for the build of `hayro-ccitt-proved` stops with a line that says so."""
    here = f"{folder}/proved-crate/hayro-ccitt-proved-0.5.0"
    for target in ("aarch64-apple-darwin", "i686-unknown-linux-gnu", "x86_64-pc-windows-gnu", "x86_64-unknown-linux-gnux32"):
        words = ["cargo", "build", "-q", "--offline", "--target", target]
        done = subprocess.run(words, cwd=here, env=environment, capture_output=True, text=True, check=False)
        said = [line for line in done.stderr.splitlines() if "x86_64 and aarch64 Linux only" in line]
        assert done.returncode != 0 and len(said) == 1 and target in said[0] and "panicked" not in done.stderr, (target, done)


def package_of_cargo(folder, environment):
    """`cargo check`, `doc`, `clippy` and `package` work in the unpacked packages, without a network. That of the erased sources has at
    most 400 KB."""
    clippy = ["clippy", "--all-features", "--all-targets", "--", "-D", "warnings"]
    words = [["check"], ["doc", "--all-features"], clippy, ["package", "--allow-dirty"]]
    for at in ("crate/hayro-ccitt-0.5.0", "proved-crate/hayro-ccitt-proved-0.5.0"):
        for word, *more in words:
            if word != "clippy" or shutil.which("cargo-clippy"):
                run(["cargo", word, "-q", "--offline", *more], cwd=f"{folder}/{at}", env=environment)
    assert os.path.getsize(f"{folder}/crate/hayro-ccitt-0.5.0.crate") <= 400_000


def packages_where_the_kit_is_not():
    missing = [tool for tool in TOOLS[:-1] if not shutil.which(tool)]
    if missing:
        leave_out("the packages of a release", ", ".join(missing))
        return
    c_library.build()
    assert not shutil.which("rt", path=PATH)
    environment = {"PATH": PATH}
    chosen = dict(PACKAGES)
    if toolchain():
        environment["PATH"] += f":{toolchain()}/bin"
    else:
        chosen = {name: commands for name, commands in chosen.items() if name not in BY_CARGO}
        leave_out("the packages of a release that cargo builds", "cargo")
    if subprocess.run("python3 -m pip --version", shell=True, env=environment, capture_output=True, check=False).returncode != 0:
        del chosen["wheel"]
        chosen.pop("python-source", None)
        leave_out("the packages for Python", "pip")
    with tempfile.TemporaryDirectory() as folder, ThreadPoolExecutor(4) as pool:
        packages, others = pool.map(made, [f"{folder}/one", f"{folder}/another/folder"])
        are_the_same(packages, others)
        same_object(f"{folder}/one")
        for done in [pool.submit(installed, name, packages, folder, environment) for name in chosen]:
            done.result()
        compiled_as_the_tarball_says(folder, environment)
        beside_other_packages(next(map(str, Path(packages).glob("*.deb"))), f"{folder}/beside")
        if "crate" in chosen:
            for check in (package_of_cargo, in_the_place_of_the_crate, refused_for_other_targets):
                check(folder, {**environment, "HOME": f"{folder}/home"})
        refused_without_its_changes(f"{folder}/another/folder")
        if shutil.which("lintian"):
            run(f"lintian --fail-on error {packages}/*.deb")
        else:
            leave_out("the Debian package's form", "lintian")
    print(f"  the same bytes in two folders; {', '.join(chosen)}: each decodes a page")


def cargo_without_the_library():
    """In the repository without `make`, `cargo check` and `cargo doc` work, and a build says in a line what is missing."""
    if not toolchain():
        leave_out("the Cargo package without the library", "cargo")
        return
    with tempfile.TemporaryDirectory() as folder:
        shutil.copytree("bindings/rust", f"{folder}/bindings/rust", ignore=shutil.ignore_patterns("target", "Cargo.lock"))
        here = {"cwd": f"{folder}/bindings/rust", "env": {**os.environ, "CARGO_TARGET_DIR": f"{folder}/target"}}
        for word in ("check", "doc"):
            run(["cargo", word, "-q", "--offline"], **here)
        done = subprocess.run(["cargo", "build", "--offline"], capture_output=True, text=True, check=False, **here)
        assert done.returncode != 0 and "libhayro_ccitt_c.a: run `make`" in done.stderr and "panicked" not in done.stderr, done.stderr


def commands_of_the_page():
    """INSTALL has the commands that install the packages."""
    with open("INSTALL.md", encoding="utf-8") as file:
        text = file.read()
    lacking = [install for install, _ in PACKAGES.values() if f"$ {install}\n" not in text]
    assert not lacking, lacking


def files_of(folder, crates):
    """The sources, definitions and proofs of crates in this folder: the bytes of each file by its name."""
    paths = [path for crate in crates for part in ("src", "specs", "proofs") for path in Path(folder, crate, part).rglob("*") if path.is_file()]
    return {str(path.relative_to(folder)): path.read_bytes() for path in paths}


def crates_in_another_repository():
    """The command of docs/SINKS.md copies the library as files into another repository, where the crate of examples/rattle names it; with
    PROVE in the environment, which takes a minute, that crate is proved over what is stored of the library."""
    with open("docs/SINKS.md", encoding="utf-8") as file:
        text = file.read()
    command, printed = re.search(r"^\$ python3 \.\./hayro_ccitt/(.* \. .*)\n((?:crates/.*\n)+)", text, re.MULTILINE).groups()
    with tempfile.TemporaryDirectory() as folder:
        for _ in range(2):
            assert run(f"python3 {os.path.abspath(command)}", cwd=folder) == printed
        below = ["fax_bits", "fax_reading", "fax_lines", "fax_rows", "fax_feeds", "hayro_ccitt"]
        copied = files_of(f"{folder}/crates", below)
        assert copied == files_of("crates", below), "vendor.py copies other files than the crates have"
        assert not any(os.path.islink(f"{folder}/crates/{name}") for name in copied)
        with open(f"{folder}/crates.txt", encoding="utf-8") as file:
            lines = [": ".join([crate, " ".join(below[:place])]).strip() for place, crate in enumerate(below)]
            assert file.read().split("\n") == [*lines, ""]
        if not os.environ.get("PROVE"):
            leave_out("the proof of the crate in examples/rattle", "PROVE", is_listed=False)
            return
        page = Path("examples/rattle/README.md").read_text(encoding="utf-8")
        os.makedirs(f"{folder}/crates/my_viewer/src")
        Path(f"{folder}/crates/my_viewer/src/lib.rt").write_text(re.search(r"^```rust\n(.*?)^```$", page, re.MULTILINE | re.DOTALL)[1], encoding="utf-8")
        with open(f"{folder}/crates.txt", "a", encoding="utf-8") as file:
            file.write("my_viewer: hayro_ccitt\n")
        shutil.copytree("crates/hayro_ccitt/out", f"{folder}/crates/hayro_ccitt/out")
        run(["rt", "check"], cwd=f"{folder}/crates/my_viewer")


# What the tests of the Python package use that the packages of TESTED_WITH have.
OF_PACKAGES = ("PIL", "distributed", "libtiff-tools", "numpy", "pikepdf", "pypdf", "qpdf", "tiffset")


def python_package():
    """The tests of bindings/python, by an interpreter that has pytest, over the shared library."""
    interpreters = [it for it in (sys.executable, "/usr/bin/python3") if os.path.exists(it)]
    found = [it for it in interpreters if subprocess.run([it, "-c", "import pytest"], capture_output=True, check=False).returncode == 0]
    if not found:
        leave_out("the tests of the Python package", "pytest")
        return
    c_library.build()
    with tempfile.TemporaryDirectory() as folder:
        run(["make", "-s", "RT=true", f"BUILD={folder}", f"{folder}/libhayro_ccitt.so"])
        library = {**os.environ, "HAYRO_CCITT_LIBRARY": f"{folder}/libhayro_ccitt.so"}
        told = run([found[0], "-m", "pytest", "-q", "-rs", "-p", "no:cacheprovider", "bindings/python/tests"], env=library, timeout=3600)
    print(f"  {told.strip().splitlines()[-1]}")
    lacking = re.findall(r"^SKIPPED .*?: (?:could not import '([\w.]+)|.*\bno ([\w, -]+)$)", told, re.MULTILINE)
    for module, tools in sorted(set(lacking)):
        leave_out("tests of the Python package", module or tools, is_listed=(module or tools).partition(".")[0] in OF_PACKAGES)


CHECKS = [packages_where_the_kit_is_not, cargo_without_the_library, commands_of_the_page, crates_in_another_repository, python_package]
