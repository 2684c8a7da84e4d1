"""Checks of what `make dist` makes, as users have it: by each C compiler and each Python on this machine, on a processor without SSE4,
and in Debian 11, 12 and 13 with nothing but a C compiler, make and Python, without a network. Each package decodes a page, or is refused
where it isn't for that system. What it needs is what the packages and the README say.

debootstrap makes the roots of Debian, once: they stay in ~/.cache/hayro_ccitt/roots.
"""
import glob
import os
import re
import shutil
import subprocess
import tempfile
from concurrent.futures import ThreadPoolExecutor

from c import c_library
from gate.skipped import leave_out
from releases.installed import first_program
from releases.released import BY_CARGO, IN_PYTHON, PACKAGES, filled, is_the_page, made, run, toolchain

DEBIANS = {"11": "bullseye", "12": "bookworm", "13": "trixie"}
MIRROR = "http://deb.debian.org/debian"
ROOTS = os.path.join(os.environ.get("XDG_CACHE_HOME") or os.path.expanduser("~/.cache"), "hayro_ccitt", "roots")
# The packages whose programs or library are compiled for one C library; the others are compiled where they are installed.
COMPILED = {"tarball": "programs", "deb": "programs", "wheel": "library"}
OTHER_TARGETS = ["aarch64-linux-gnu-gcc", "gcc -m32"]
# A processor of x86-64 without SSE4, which the proved machine code needs.
OLD = "qemu-x86_64 -cpu core2duo"


def failed(words, **more):
    """The lines that a command prints to standard error, which ends with an error."""
    done = subprocess.run(words, capture_output=True, text=True, check=False, timeout=600, shell=isinstance(words, str), **more)
    assert done.returncode != 0, f"{words} succeeded\n{done.stdout[-2000:]}{done.stderr[-2000:]}"
    return done.stderr.splitlines()


def unpacked(packages, folder, names=tuple(PACKAGES)):
    """The folder of each of these packages that is unpacked by its name."""
    os.makedirs(folder)
    archives = {"tarball": "*-linux-*.tar.gz", "source": "*-src.tar.gz", "crate": "hayro-ccitt-0*.crate", "proved-crate": "*-proved-*.crate"}
    for name, pattern in archives.items():
        if name in names:
            run(f"mkdir {name} && tar xzf {packages}/{pattern} -C {name} --strip-components 1", cwd=folder)
    run(f"dpkg-deb -x {packages}/*.deb deb && python3 -m zipfile -e {packages}/*.whl wheel", cwd=folder)
    return {name: f"{folder}/{name}" for name in names}


# The C compilers


def compilers():
    """Each C compiler on this machine by its name."""
    names = ["gcc", "musl-gcc", *map(os.path.basename, sorted(glob.glob("/usr/bin/clang-[0-9]*"))), "clang"]
    found = {}
    for name in names:
        path = shutil.which(name)
        if path and re.fullmatch(r"[a-z-]+(-\d+)?", name):
            found.setdefault(os.path.realpath(path) if "clang" in name else path, name)
    return list(found.values())


def built(compiler, folder):
    """The source tarball is built, and decodes a page; the header's first program runs over the shared library."""
    os.mkdir(folder)
    run(f"tar xzf ../hayro_ccitt-*-src.tar.gz --strip-components 1 && make CC={compiler} && make CC={compiler} check", cwd=folder)
    with open(f"{folder}/first.c", "w", encoding="utf-8") as file:
        file.write(first_program())
    soname = re.search(r"SONAME +(\S+)", run(["objdump", "-p", f"{folder}/build/libhayro_ccitt.so"]))[1]
    os.symlink("libhayro_ccitt.so", f"{folder}/build/{soname}")
    told = run(f"{compiler} first.c -Ic -Lbuild -lhayro_ccitt -Wl,-rpath,$PWD/build -o first && ./first", cwd=folder)
    assert told == "18\n", (compiler, told)
    run("build/strip_to_pbm g4 1240 1754 b < ../strip > page.pbm", cwd=folder)
    is_the_page(f"{folder}/page.pbm", compiler)


def by_each_compiler(packages, folder):
    """The source tarball is built by each C compiler, static and shared. For another target it says in one line what it is for."""
    here = filled(folder, packages)
    found = compilers()
    for name in ("gcc", "clang", "musl-gcc"):
        if not any(it.startswith(name) for it in found):
            leave_out(f"the source tarball by {name}", name, is_listed=False)
    with ThreadPoolExecutor(len(found)) as pool:
        for done in [pool.submit(built, compiler, f"{here}/{compiler}") for compiler in found]:
            done.result()
    os.mkdir(f"{here}/other")
    run("tar xzf ../hayro_ccitt-*-src.tar.gz --strip-components 1", cwd=f"{here}/other")
    others = [it for it in OTHER_TARGETS if shutil.which(it.split()[0])]
    for compiler in others:
        lines = failed(["make", f"CC={compiler}"], cwd=f"{here}/other")
        assert len(lines) == 1 and "x86-64 Linux only" in lines[0] and not os.path.exists(f"{here}/other/build"), (compiler, lines)
    print(f"  the source tarball by {', '.join(found)}; refused for the targets of {', '.join(others)}")


# The processor


def on_an_old_processor(packages, folder):
    """Without SSE4 the programs, the wheel and the proved crate say so and end; the crate that Rust compiles decodes a page, and its
    library for C runs."""
    if not shutil.which(OLD.split()[0]):
        leave_out("the packages on an old processor", OLD.split()[0])
        return
    here = filled(folder, packages)
    at = unpacked(packages, f"{here}/unpacked")
    commands = {"faxconv": "-m g4 -w 1240 -r 1754 strip > page.pbm", "faxrows": "g4 1240 1754 b < strip", "faxpack": "g4 - < strip"}
    said = {
        **{name: failed(f"{OLD} {at['tarball']}/bin/{name} {words}", cwd=here) for name, words in commands.items()},
        "wheel": failed(f"PYTHONPATH={at['wheel']} {OLD} {IN_PYTHON.replace('python3', '/usr/bin/python3', 1)}", cwd=here)[-1:],
    }
    if toolchain():
        example = "target/release/examples/strip_to_pbm g4 1240 1754 b"
        for crate in "crate", "proved-crate":
            run("cargo build -q --offline --release --example strip_to_pbm", cwd=at[crate])
        said["proved crate"] = [
            line for line in failed(f"{OLD} {at['proved-crate']}/{example} < strip > page.pbm", cwd=here) if "processor" in line
        ]
        run(f"{OLD} {at['crate']}/{example} < strip > page.pbm", cwd=here)
        is_the_page(f"{here}/page.pbm", f"the crate by {OLD}")
        run("cargo build -q --offline --release", cwd=f"{at['crate']}/c")
        with open(f"{here}/first.c", "w", encoding="utf-8") as file:
            file.write(first_program())
        run(f"cc first.c -I{at['crate']}/c/include {at['crate']}/c/target/release/libhayro_ccitt.a -o first", cwd=here)
        assert run(f"{OLD} ./first", cwd=here) == "18\n"
    for name, lines in said.items():
        assert len(lines) == 1 and re.search("processor|CPU|x86-64-v2", lines[0]), (name, lines)
        print(f"  without SSE4, {name}: {lines[0]}")


# Python


def pythons():
    """Each Python 3 on this machine, by its version."""
    found = {}
    folders = ["/usr/bin", "/usr/local/bin", os.path.expanduser("~/.pyenv/versions/3*/bin")]
    for path in [path for folder in folders for path in glob.glob(f"{folder}/python3")]:
        said = run([path, "-c", "import sys; print('%d.%d' % sys.version_info[:2])"]).strip()
        found.setdefault(tuple(map(int, said.split("."))), []).append(path)
    return sorted((version, path) for version, paths in found.items() for path in paths)


def by_each_python(packages, folder):
    """pip installs the wheel for each Python that it is for, which decodes a page, and refuses it for older ones."""
    here = filled(folder, packages)
    metadata = run(f"python3 -m zipfile -e *.whl unpacked && cat unpacked/*.dist-info/METADATA", cwd=here)
    oldest = tuple(map(int, re.search(r"^Requires-Python: >=(\d+)\.(\d+)$", metadata, re.MULTILINE).groups()))
    right, refused = [], []
    for version, path in pythons():
        name = ".".join(map(str, version))
        if subprocess.run([path, "-m", "pip", "--version"], capture_output=True, check=False).returncode != 0:
            leave_out(f"the wheel by {path}", "pip", is_listed=False)
            continue
        words = f"{path} -m pip install -q --no-index --target {len(right)} hayro_ccitt-*.whl"
        if version < oldest:
            lines = failed(words, cwd=here)
            assert any(f"'>={'.'.join(map(str, oldest))}'" in line for line in lines), (name, lines)
            refused.append(name)
            continue
        run(words, cwd=here)
        run(f"PYTHONPATH={len(right)} {IN_PYTHON.replace('python3', path, 1)}", cwd=here)
        is_the_page(f"{here}/page.pbm", f"the wheel by Python {name}")
        os.remove(f"{here}/page.pbm")
        right.append(name)
    assert right
    print(f"  the wheel by Python {', '.join(right)}; refused by {', '.join(refused) or 'none'}")


# Debian


def root(number):
    """A root of this Debian with a C compiler, make and Python, which debootstrap makes once; or None."""
    kept = f"{ROOTS}/{DEBIANS[number]}"
    what = f"the packages in Debian {number}"
    if os.geteuid() != 0 or not shutil.which("unshare"):
        leave_out(what, "root and unshare", is_listed=False)
        return None
    if os.path.isdir(kept):
        return kept
    if not shutil.which("debootstrap"):
        leave_out(what, "debootstrap", is_listed=False)
        return None
    part = f"{kept}.{os.getpid()}"
    os.makedirs(ROOTS, exist_ok=True)
    words = ["debootstrap", "--variant=minbase", "--include=gcc,libc6-dev,make,python3-venv", DEBIANS[number], part, MIRROR]
    done = subprocess.run(words, capture_output=True, text=True, check=False, timeout=1200)
    if done.returncode != 0:
        shutil.rmtree(part, ignore_errors=True)
        leave_out(what, f"what debootstrap fetches from {MIRROR}", is_listed=False)
        return None
    os.rename(part, kept)
    return kept


# In a root whose changes are kept in memory, without a network: the last argument is a script that runs in /packages.
ENTERED = r"""
mount -t tmpfs none "$1" && mkdir "$1/changes" "$1/work" "$1/root"
mount -t overlay overlay -o "lowerdir=$2,upperdir=$1/changes,workdir=$1/work" "$1/root"
mount -t proc proc "$1/root/proc" && mkdir "$1/root/toolchain" && cp -r "$3" "$1/root/packages"
[ -z "$4" ] || mount --bind "$4" "$1/root/toolchain"
path=/root/env/bin:/usr/sbin:/usr/bin:/sbin:/bin:/toolchain/bin
exec chroot "$1/root" env -i HOME=/root DEBIAN_FRONTEND=noninteractive PIP_NO_INDEX=1 PATH=$path sh -ec "cd /packages; $5"
"""


def entered(kept, packages, folder, script):
    os.mkdir(folder)
    words = ["unshare", "--mount", "--net", "sh", "-ec", ENTERED, "sh", folder, kept, packages, toolchain() or "", script]
    return subprocess.run(words, capture_output=True, text=True, check=False, timeout=600)


def in_debian(number, packages, folder, needed):
    """In a root of Debian each package is installed by the README's command, and decodes a page, unless what it needs is newer."""
    kept = root(number)
    if not kept:
        return None
    os.mkdir(folder)
    with open(f"{kept}/var/lib/dpkg/status", encoding="utf-8") as file:
        version = re.search(r"^Package: libc6\n(?:.+\n)*?Version: (\d+)\.(\d+)", file.read(), re.MULTILINE)
    libc = int(version[1]), int(version[2])
    right, refused = [], []
    for name, (install, decode) in PACKAGES.items():
        if name in BY_CARGO and not toolchain():
            continue
        if name == "deb":
            install = install.replace("install ", "install -y ")
        if "pip install" in install:
            install = f"python3 -m venv /root/env && {install}"
        done = entered(kept, packages, f"{folder}/{name}", f"{install}; ({decode}); cmp page.pbm page")
        if name in COMPILED and needed[COMPILED[name]] > libc:
            said = done.stdout + done.stderr
            assert done.returncode != 0 and re.search(r"GLIBC_[\d.]+' not found|Depends: libc6", said), (number, name, done)
            refused.append(name)
        else:
            assert done.returncode == 0, f"{name} in Debian {number}\n{done.stdout[-2000:]}{done.stderr[-2000:]}"
            right.append(name)
    return f"  Debian {number}: {', '.join(right)}" + (f"; for a newer C library: {', '.join(refused)}" if refused else "")


def in_each_debian(packages, folder):
    here = filled(folder, packages)
    with open("corpus/pictures/page", "rb") as picture, open(f"{here}/page", "wb") as page:
        page.write(b"P4\n1240 1754\n" + picture.read())
    needed = needs(unpacked(packages, f"{folder}-unpacked"))
    with ThreadPoolExecutor(len(DEBIANS)) as pool:
        for line in pool.map(lambda number: in_debian(number, here, f"{folder}-{number}", needed), DEBIANS):
            if line:
                print(line)


# The C library


def named_libc(paths):
    """The newest version of the C library that these files name."""
    text = "".join(run(["readelf", "--wide", "--version-info", path]) for path in paths)
    return max(tuple(map(int, found.split("."))) for found in re.findall(r"GLIBC_(\d+\.\d+)", text))


def needs(at):
    """The oldest C library by which the programs run, and the library: those of the tarball, which the other packages have too."""
    libraries = [*glob.glob(f"{at['tarball']}/lib/*.so"), *glob.glob(f"{at['wheel']}/hayro_ccitt/*.so")]
    programs = [path for path in glob.glob(f"{at['tarball']}/bin/*") if not os.path.islink(path)]
    assert len(libraries) == 2 and len(programs) == 3, at
    return {"programs": named_libc(programs), "library": named_libc(libraries)}


def says_what_it_needs(packages, folder, machine="x86_64", names=tuple(PACKAGES)):
    """The C library that the programs and the library ask for is the one that INSTALL, PROVENANCE and the Debian package name."""
    at = unpacked(packages, folder, names)
    asked = {name: f"{major}.{minor}" for name, (major, minor) in needs(at).items()}
    with open("INSTALL.md", encoding="utf-8") as file:
        install = re.search(r"^## Packages.*?(?=^## )", file.read(), re.MULTILINE | re.DOTALL)[0]
    said = dict(re.findall(r"\b(programs|library)[^.;|]*?\bglibc (\d+\.\d+)", install))
    if machine == "aarch64":
        said["library"] = re.search(r"\bon\s+ARM64\s+(\d+\.\d+)", install)[1]
    assert said == asked, f"INSTALL says {said}, and the files ask for {asked}"
    for path in [*glob.glob(f"{folder}/**/PROVENANCE", recursive=True)]:
        with open(path, encoding="utf-8") as file:
            said = dict(re.findall(r"\b(programs|library)[^.;|]*?\bglibc (\d+\.\d+)", file.read()))
        assert said == asked, f"{path} says {said}, and the files ask for {asked}"
    depends = run(f"dpkg-deb --field {packages}/*.deb Depends").strip()
    files = [*glob.glob(f"{at['deb']}/usr/bin/*"), *glob.glob(f"{at['deb']}/usr/lib/*/*.so.*")]
    major, minor = named_libc([path for path in files if not os.path.islink(path)])
    assert f"libc6 (>= {major}.{minor})" in depends.split(", "), depends
    assert glob.glob(f"{packages}/*-manylinux_{asked['library'].replace('.', '_')}_{machine}.whl"), os.listdir(packages)
    print(f"  {machine}: glibc {asked['programs']} for the programs, {asked['library']} for the library, as is said")


PARTS = [says_what_it_needs, by_each_compiler, on_an_old_processor, by_each_python, in_each_debian]


def packages_as_users_have_them():
    c_library.build()
    with tempfile.TemporaryDirectory() as folder, ThreadPoolExecutor(len(PARTS)) as pool:
        packages = made(f"{folder}/made")
        for done in [pool.submit(part, packages, f"{folder}/{part.__name__}") for part in PARTS]:
            done.result()


CHECKS = [packages_as_users_have_them]
