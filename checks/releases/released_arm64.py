"""Checks of what `make dist TARGET=aarch64-unknown-linux-gnu` makes, as users have it: in a root of Debian for ARM64, by qemu. Each package
is installed and decodes a page, the programs are those that Rust compiles, and the tests of the Python package pass over the wheel.

debootstrap fetches the root's packages, once: they stay in ~/.cache/hayro_ccitt/roots."""
import glob
import os
import re
import shlex
import shutil
import subprocess
import sys
import tempfile

from c import arm64
from gate.skipped import leave_out
from programs import program
from releases import erased_programs, released, systems
from releases.released import run

sys.path.insert(0, os.path.abspath("release"))
import release  # noqa: E402

WHAT = "the packages for ARM64"
TARGET = release.TARGETS[arm64.TARGET]
NAMES = ("tarball", "deb", "wheel")
INCLUDED = "python3-pip,python3-pytest"


def root():
    """A root of Debian 12 for ARM64: what its packages hold, and dpkg's list of them. None where they can't be fetched."""
    kept = f"{systems.ROOTS}/bookworm-arm64"
    if os.path.isdir(kept):
        return kept
    if os.geteuid() != 0 or not shutil.which("debootstrap"):
        leave_out(WHAT, "root and debootstrap", is_listed=False)
        return None
    part = f"{kept}.{os.getpid()}"
    os.makedirs(systems.ROOTS, exist_ok=True)
    words = ["debootstrap", "--foreign", "--arch=arm64", "--variant=minbase", f"--include={INCLUDED}", "bookworm", part, systems.MIRROR]
    done = subprocess.run(words, capture_output=True, text=True, check=False, timeout=1200)
    if done.returncode != 0:
        shutil.rmtree(part, ignore_errors=True)
        leave_out(WHAT, f"what debootstrap fetches from {systems.MIRROR}", is_listed=False)
        return None
    with open(f"{part}/var/lib/dpkg/status", "w", encoding="utf-8") as status:
        for package in sorted(glob.glob(f"{part}/var/cache/apt/archives/*.deb")):
            run(f"dpkg-deb --fsys-tarfile {package} | tar x --keep-directory-symlink -C {part}")
            fields = run(["dpkg-deb", "--field", package])
            status.write(re.sub(r"^(Package: .*\n)", r"\1Status: install ok installed\n", fields, flags=re.MULTILINE) + "\n")
            os.remove(package)
    os.rename(part, kept)
    return kept


def lacking():
    """Whether something is missing without which there are no packages for ARM64, or none can be run; then the check is left out."""
    rust = erased_programs.rust_for(arm64.TARGET) if shutil.which("cargo") else None
    tools = [tool for tool in ("cargo", "dpkg", "dpkg-deb", "rustfmt") if not shutil.which(tool)]
    missing = arm64.lacking() or ", ".join(tools)
    if missing:
        leave_out(WHAT, missing)
    elif not rust:
        missing = f"Rust's std for {arm64.TARGET}"
        leave_out(WHAT, missing, is_listed=False)
    return missing


def environment():
    """Where cargo finds Rust's std for ARM64."""
    return {**os.environ, **erased_programs.rust_for(arm64.TARGET)}


def is_for_arm64(folder):
    """Each program and library in a folder is for this machine."""
    paths = [path for path in glob.glob(f"{folder}/**/*", recursive=True) if os.path.isfile(path) and not os.path.islink(path)]
    files = [path for path in paths if release.read(path)[:4] == b"\x7fELF"]
    assert files and all(release.is_for(TARGET, path) for path in files), [path for path in files if not release.is_for(TARGET, path)]


def programs_decode(emulated, programs, folder):
    """The three programs in a folder say the release's version, and decode a page and encode it again."""
    for name in release.PROGRAMS:
        assert run([*emulated, f"{programs}/{name}", "--version"]).split()[-1] == program.version(), name
    faxrows, faxpack, faxconv = (" ".join([*emulated, f"{programs}/{name}"]) for name in ("faxrows", "faxpack", "faxconv"))
    run(f"{faxconv} -m g4 -w 1240 -r 1754 strip > page.pbm", cwd=folder)
    released.is_the_page(f"{folder}/page.pbm", "faxconv for ARM64")
    run(f"{faxpack} g4 b < page.pbm | {faxrows} -o g4 1240 1754 bs > rows && tail -c +14 page.pbm | cmp - rows", cwd=folder)
    run(f"{faxconv} -o page.png page.pbm && {faxconv} -o page.tif page.pbm && {faxconv} -o again.pbm page.tif && cmp page.pbm again.pbm", cwd=folder)


def tarball(emulated, at, folder):
    """Its programs run where it is unpacked, and the first program of the header over both its libraries."""
    programs_decode(emulated, f"{at}/bin", folder)
    with open(f"{folder}/first.c", "w", encoding="utf-8") as file:
        file.write(released.first_program())
    for linked in ([f"{at}/lib/libhayro_ccitt.a"], [f"-L{at}/lib", "-lhayro_ccitt"]):
        run([f"{arm64.CROSS}-gcc", f"{folder}/first.c", f"-I{at}/include", *linked, "-o", f"{folder}/first"])
        assert run([*emulated, "-E", f"LD_LIBRARY_PATH={at}/lib", f"{folder}/first"]) == "18\n", linked


def deb(emulated, kept, packages, folder):
    """dpkg installs it where Debian's packages for ARM64 are installed, and refuses it where those are for another machine; its programs
    run, and the first program over its library."""
    (package,) = glob.glob(f"{packages}/*.deb")
    listed = release.read(f"{kept}/var/lib/dpkg/status").decode()
    for machine in ("amd64", TARGET.debian):
        system = f"{folder}/{machine}"
        os.makedirs(f"{system}/var/lib/dpkg/updates")
        os.makedirs(f"{system}/var/lib/dpkg/info")
        release.write(f"{system}/var/lib/dpkg/arch", "amd64\narm64\n")
        release.write(f"{system}/var/lib/dpkg/status", listed.replace(f"Architecture: {TARGET.debian}\n", f"Architecture: {machine}\n"))
        words = ["dpkg", f"--root={system}", "--force-not-root", "-i", package]
        done = subprocess.run(words, capture_output=True, text=True, check=False)
        assert (done.returncode == 0) == (machine == TARGET.debian), (machine, done.stdout + done.stderr)
    assert "depends on libc6" in done.stderr or done.returncode == 0
    at = f"{folder}/{TARGET.debian}/usr"
    programs_decode(emulated, f"{at}/bin", folder)
    run([f"{arm64.CROSS}-gcc", f"{folder}/../first.c", f"-I{at}/include", f"-L{at}/lib/{TARGET.triplet}", "-lhayro_ccitt", "-o", f"{folder}/first"])
    assert run([*emulated, "-E", f"LD_LIBRARY_PATH={at}/lib/{TARGET.triplet}", f"{folder}/first"]) == "18\n"
    if shutil.which("lintian"):
        run(["lintian", "--fail-on", "error", package])


# Those are left out that compile a program for this machine, and those that take minutes in qemu.
LEFT_OUT = "not of_c and not every_setting and not strips and not threads"


def wheel(emulated, kept, folder):
    """pip installs it for an ARM64 Python, for which it decodes a page, and over its library the tests of the Python package pass."""
    python = shlex.join([*emulated, f"{kept}/usr/bin/python3"])
    run(f"{python} -m pip install -q --no-index --root-user-action=ignore --target site hayro_ccitt-*.whl", cwd=folder)
    run(f"PYTHONPATH=site {released.IN_PYTHON.replace('python3', python, 1)}", cwd=folder)
    released.is_the_page(f"{folder}/page.pbm", "the wheel for ARM64")
    named = {**os.environ, "HAYRO_CCITT_LIBRARY": f"{folder}/site/hayro_ccitt/libhayro_ccitt.so", "PYTHONDONTWRITEBYTECODE": "1"}
    tests = [f"bindings/python/tests/test_{name}.py" for name in ("decoding", "encoding")]
    told = run([*emulated, f"{kept}/usr/bin/python3", "-m", "pytest", "-q", "-p", "no:cacheprovider", "-k", LEFT_OUT, *tests], env=named)
    print(f"  the wheel by Python for ARM64: {told.strip().splitlines()[-1]}")


def proved_crate(emulated, repository, folder):
    """bindings/rust is built over the library for ARM64, and its example decodes a page."""
    named = {"CARGO_TARGET_DIR": f"{folder}/target", "CARGO_TARGET_AARCH64_UNKNOWN_LINUX_GNU_RUNNER": " ".join(emulated)}
    words = f"cargo run -q --offline --release --target {arm64.TARGET} --example strip_to_pbm -- g4 1240 1754 b < {folder}/strip > {folder}/page.pbm"
    run(words, cwd=f"{repository}/bindings/rust", env={**os.environ, **erased_programs.rust_for(arm64.TARGET), **named})
    released.is_the_page(f"{folder}/page.pbm", "hayro-ccitt-proved for ARM64")


def packages_for_arm64():
    """Each package for ARM64 is for that machine, says what it needs, is installed, and decodes a page; and so does hayro-ccitt-proved."""
    if lacking() or not arm64.build():
        return
    kept = root()
    if not kept:
        return
    emulated = ["qemu-aarch64", "-L", kept]
    with tempfile.TemporaryDirectory() as folder:
        packages = released.made(f"{folder}/made", arm64.TARGET, environment())
        assert len(os.listdir(packages)) == len(NAMES) + 1
        run(["sha256sum", "--quiet", "-c", "SHA256SUMS"], cwd=packages)
        systems.says_what_it_needs(packages, f"{folder}/unpacked", TARGET.machine, NAMES)
        is_for_arm64(f"{folder}/unpacked")
        here = released.filled(f"{folder}/here", packages)
        tarball(emulated, f"{folder}/unpacked/tarball", here)
        deb(emulated, kept, packages, released.filled(f"{here}/deb", packages))
        wheel(emulated, kept, here)
        proved_crate(emulated, f"{folder}/made", here)
    print(f"  {', '.join(NAMES)}: each is installed for ARM64, and decodes a page")


CHECKS = [packages_for_arm64]
