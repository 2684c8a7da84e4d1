"""Makes the packages of a release of what `make` built; `make dist` calls it.

    python3 release/release.py BUILD VERSION [TARGET]

BUILD/dist gets the binary tarball, the Debian package, the two Cargo packages, the Python package as a wheel and as sources, the source
tarball, the package for JavaScript and the page that opens fax files if `make web` made them, and SHA256SUMS; for another target than
x86-64 the tarball, the Debian package and the wheel, which are what differs. The same files give the same bytes in any folder. A version
that CHANGELOG.md doesn't have is refused, and a file that is for another machine."""
import collections
import email.utils
import gzip
import hashlib
import io
import json
import os
import re
import shutil
import subprocess
import sys
import tarfile
import tempfile

import javascript

sys.path.insert(0, "bindings/python")
import build_backend  # noqa: E402

CRATE = "hayro-ccitt-0.5.0"
PROVED_CRATE = "hayro-ccitt-proved-0.5.0"
# A target: its machine, as in the names of tarballs and wheels; Debian's names of its files' folder and of packages for it; what the names
# of its tools begin with; and the number of the machine in files of ELF.
Target = collections.namedtuple("Target", "machine triplet debian tools number title")
TARGETS = {
    "": Target("x86_64", "x86_64-linux-gnu", "amd64", "", 62, "x86-64"),
    "aarch64-unknown-linux-gnu": Target("aarch64", "aarch64-linux-gnu", "arm64", "aarch64-linux-gnu-", 183, "ARM64"),
}
PROVED = ["hayro_ccitt_c", "faxrows", "faxpack", "faxconv"]
PROGRAMS = ["faxrows", "faxpack", "faxconv"]
DESCRIPTION = "decoder and encoder for CCITT fax images, with proofs"
MAKERS = "hayro_ccitt <hayro_ccitt@example.org>"
NO_LICENCE = "No licence is chosen yet: that is for the owner of the repository to do.\n"


def fail(why):
    sys.exit(f"make dist: {why}")


def said(*words):
    """The first line that a command prints, or nothing if it fails."""
    try:
        done = subprocess.run(words, capture_output=True, text=True, check=False)
    except OSError:
        return ""
    return done.stdout.split("\n")[0].strip() if done.returncode == 0 else ""


def read(path):
    with open(path, "rb") as file:
        return file.read()


def write(path, data):
    os.makedirs(os.path.dirname(path), exist_ok=True)
    with open(path, "wb") as file:
        file.write(data if isinstance(data, bytes) else data.encode())


def sha256(data):
    return hashlib.sha256(data).hexdigest()


def files_in(folder):
    """The paths of a folder's files and links, below it, in order."""
    found = [os.path.relpath(f"{at}/{name}", folder) for at, _, names in os.walk(folder) for name in names]
    return sorted(found)


def tracked():
    """The repository's files: those that git would track, or where it isn't a repository, all that aren't built."""
    listed = subprocess.run(["git", "ls-files", "-z", "--cached", "--others", "--exclude-standard"], capture_output=True, check=False)
    if listed.returncode == 0 and listed.stdout:
        return sorted(name for name in listed.stdout.decode().split("\0") if name and os.path.isfile(name))
    skipped = ("build", "out", "target", ".git", "__pycache__")
    return [name for name in files_in(".") if not {*skipped} & {*name.split("/")}]


def crates_below(crate):
    """A crate, and the crates of the repository that it is built from."""
    with open("crates.txt", encoding="utf-8") as file:
        named = dict((line.split(":")[0].split()[0], line.split(":")[1].split()) for line in file if not line.startswith("#"))
    found = [crate]
    for name in found:
        found += [it for it in named[name] if it in named and it not in found]
    return sorted(found)


def proved_sources():
    """A line for each crate that is in the library or the programs: a hash of its sources, definitions and proofs."""
    lines = []
    for crate in sorted({name for program in PROVED for name in crates_below(program)}):
        files = [name for name in tracked() if re.match(rf"crates/{crate}/(src|specs|proofs)/", name)]
        listed = "".join(f"{sha256(read(name))}  {name}\n" for name in files)
        lines.append(f"{sha256(listed.encode())}  crates/{crate} ({len(files)} files)")
    return lines


def is_for(target, path):
    """Whether a file of ELF is for this target's machine."""
    head = read(path)[:20]
    return head[:4] == b"\x7fELF" and int.from_bytes(head[18:20], "little") == target.number


def provenance(build, version, name):
    """What the packages were made from, with what, and how the same bytes are made again."""
    target = TARGETS[name]
    commit = said("git", "rev-parse", "HEAD") or "none"
    changed = "" if commit == "none" or not said("git", "status", "--porcelain") else ", with changes that aren't committed"
    built = [f"{build}/proved.o"]
    if not name:
        built += [*(f"{build}/{program}" for program in PROGRAMS), *(f"{build}/{other}/proved.o" for other in targets_in(build) if other)]
    of_rust = f"{CRATE}.crate, the Python package as sources and that for JavaScript have none of these. They are" if not name else "The programs have none of these. They are"
    programs = dotted(newest_libc([f"{build}/{name}" for name in PROGRAMS]))
    library = dotted(newest_libc([f"{build}/libhayro_ccitt.so.{version}"]))
    return "\n".join(
        [
            f"hayro_ccitt {version}",
            "",
            f"Commit: {commit}{changed}",
            f"Proved and compiled by: {said('rt', 'version') or 'unknown'}",
            f"C parts compiled by: {said(f'{target.tools}gcc' if name else os.environ.get('CC', 'cc'), '--version')}",
            f"Linked by: {said(f'{target.tools}ld', '--version')}",
            f"Needs: {target.title} Linux, the programs glibc {programs} or newer, the library glibc {library} or newer.",
            "",
            "The proved crates: the SHA-256 of the list that `sha256sum` prints for the files of src, specs and proofs, in order.",
            *proved_sources(),
            "",
            f"What the kit compiled them to: the object of the library, its calls renamed to proved_*{'' if name else ', and three programs'}.",
            *(f"{sha256(read(path))}  {os.path.relpath(path, build)}" for path in built),
            "",
            f"{of_rust} the proved sources, compiled by Rust: release/erased erased their contracts.",
            f"Laid out by: {said('rustfmt', '--version') or 'unknown'}",
            *([f"Compiled by: {said(os.environ.get('RUSTC', 'rustc'), '--version')}"] if name else []),
            *([] if name else [f"That for JavaScript is compiled by: {said(f'{javascript.DEBIAN}/bin/rustc', '--version') or 'unknown'}"]),
            "",
            "The same bytes again, with this kit, compiler and linker: "
            f"`make{name and ' TARGET='}{name} && make dist{name and ' TARGET='}{name}` in a clone of this commit, in any folder.",
            "",
        ]
    )


def packed_tar(entries, epoch):
    """A tar file of names, modes and data, compressed. A link is a name and a text that it points to."""
    packed = io.BytesIO()
    with gzip.GzipFile(filename="", mode="wb", fileobj=packed, mtime=epoch) as compressed:
        with tarfile.open(fileobj=compressed, mode="w", format=tarfile.GNU_FORMAT) as tar:
            for name, mode, data in sorted(entries, key=lambda entry: entry[0]):
                item = tarfile.TarInfo(name)
                item.mode, item.mtime, item.uname, item.gname = mode, epoch, "root", "root"
                if isinstance(data, str):
                    item.type, item.linkname = tarfile.SYMTYPE, data
                    tar.addfile(item)
                else:
                    item.size = len(data)
                    tar.addfile(item, io.BytesIO(data))
    return packed.getvalue()


def entries_of(folder, top):
    """The files of a folder as entries of a tar file below a folder of that name."""
    for name in files_in(folder):
        path = f"{folder}/{name}"
        if os.path.islink(path):
            yield f"{top}/{name}", 0o777, os.readlink(path)
        else:
            yield f"{top}/{name}", 0o755 if os.access(path, os.X_OK) else 0o644, read(path)


def installed(build, to, *words):
    words = ["make", "--no-print-directory", f"BUILD={build}", f"DESTDIR={to}", *words, "install"]
    done = subprocess.run(words, capture_output=True, text=True, check=False)
    if done.returncode != 0:
        fail(f"`make install` failed:\n{done.stdout}{done.stderr}")
    # The file with the other prefix isn't left in BUILD.
    os.remove(f"{build}/hayro_ccitt.pc")


def documents(folder, told):
    for name in ("CHANGELOG.md", "SECURITY.md"):
        write(f"{folder}/{name}", read(name))
    write(f"{folder}/PROVENANCE", told)
    for name in tracked():
        if re.match(r"examples/.*\.c$", name):
            write(f"{folder}/{name}", read(name))


def binary_tarball(build, version, target, told, epoch, work):
    top = f"hayro_ccitt-{version}-linux-{target.machine}"
    installed(build, f"{work}/binary", "PREFIX=/")
    pc = f"{work}/binary/lib/pkgconfig/hayro_ccitt.pc"
    text = read(pc).decode()
    places = {"prefix": "${pcfiledir}/../..", "libdir": "${prefix}/lib", "includedir": "${prefix}/include"}
    for name, place in places.items():
        text = re.sub(rf"^{name}=.*$", lambda _, line=f"{name}={place}": line, text, flags=re.MULTILINE)
    write(pc, text)
    documents(f"{work}/binary/share/doc/hayro_ccitt", told)
    write(f"{work}/binary/README", TARBALL_README.format(top=top))
    return f"{top}.tar.gz", packed_tar(entries_of(f"{work}/binary", top), epoch)


TARBALL_README = """\
bin       programs, which run as they are: {top}/bin/faxconv -o page.pbm FILE.tif
lib       the library, static and shared; pkgconfig/hayro_ccitt.pc and cmake/, which find this folder wherever it is
include   the headers; the first page of hayro_ccitt.h is a complete program
share     manual pages, examples, changes, what is promised, and PROVENANCE

A program that is linked with the static library needs nothing else:

    cc first.c -I{top}/include {top}/lib/libhayro_ccitt.a

and with the shared one, found where it lies:

    export PKG_CONFIG_PATH=$PWD/{top}/lib/pkgconfig
    cc first.c $(pkg-config --cflags --libs hayro_ccitt) -Wl,-rpath,$PWD/{top}/lib
"""


def newest_libc(paths):
    """The newest version of the C library that these files name."""
    versions = set()
    for path in paths:
        listed = subprocess.run(["objdump", "-T", path], capture_output=True, text=True, check=True).stdout
        versions |= {tuple(map(int, found.split("."))) for found in re.findall(r"GLIBC_([\d.]+)", listed)}
    return max(versions)


def dotted(version):
    return ".".join(map(str, version))


def debian_package(build, version, target, told, epoch, work):
    root = f"{work}/debian"
    installed(build, root, "PREFIX=/usr", f"LIBDIR=/usr/lib/{target.triplet}")
    documents(f"{root}/usr/share/doc/hayro-ccitt", told)
    shared = f"{root}/usr/share/doc/hayro-ccitt"
    os.rename(f"{shared}/CHANGELOG.md", f"{shared}/changelog")
    date = email.utils.formatdate(epoch)
    entry = f"hayro-ccitt ({version}-1) unstable; urgency=medium\n\n  * Version {version}: see changelog.gz.\n\n -- {MAKERS}  {date}\n"
    write(f"{shared}/changelog.Debian", entry)
    for name in [f"{shared}/changelog", f"{shared}/changelog.Debian", *(f"{root}/{name}" for name in files_in(root) if "/man/" in name)]:
        write(f"{name}.gz", gzip.compress(read(name), mtime=0))
        os.remove(name)
    write(f"{shared}/copyright", NO_LICENCE)
    programs = [f"{root}/usr/bin/{name}" for name in os.listdir(f"{root}/usr/bin") if not os.path.islink(f"{root}/usr/bin/{name}")]
    library, strip = f"{root}/usr/lib/{target.triplet}/libhayro_ccitt.so.{version}", f"{target.tools}strip"
    for path in [*programs, library]:
        subprocess.run([strip, "--strip-unneeded", path], check=True)
    os.chmod(library, 0o644)
    subprocess.run([strip, "--strip-debug", f"{root}/usr/lib/{target.triplet}/libhayro_ccitt.a"], check=True)
    size = sum(os.path.getsize(f"{root}/{name}") for name in files_in(root)) // 1024
    libc = dotted(newest_libc([*programs, library]))
    control = [
        "Package: hayro-ccitt",
        f"Version: {version}-1",
        f"Architecture: {target.debian}",
        f"Maintainer: {MAKERS}",
        f"Installed-Size: {size}",
        f"Depends: libc6 (>= {libc})",
        "Section: graphics",
        "Priority: optional",
        f"Description: {DESCRIPTION}",
        " ITU-T T.4 (Group 3) and T.6 (Group 4), as TIFF and PDF files have them: the",
        " programs, the library for C with its headers, and manual pages.",
        "",
    ]
    write(f"{root}/DEBIAN/control", "\n".join(control))
    write(f"{root}/DEBIAN/shlibs", f"libhayro_ccitt {'.'.join(version.split('.')[:2])} hayro-ccitt (>= {version})\n")
    write(f"{root}/DEBIAN/triggers", "activate-noawait ldconfig\n")
    sums = [name for name in files_in(root) if not os.path.islink(f"{root}/{name}") and not name.startswith("DEBIAN/")]
    write(f"{root}/DEBIAN/md5sums", "".join(f"{hashlib.md5(read(f'{root}/{name}')).hexdigest()}  {name}\n" for name in sums))
    for at, folders, names in os.walk(root):
        for name in folders:
            os.chmod(f"{at}/{name}", 0o755)
        for name in names:
            os.utime(f"{at}/{name}", (epoch, epoch), follow_symlinks=False)
    package = f"hayro-ccitt_{version}-1_{target.debian}.deb"
    words = ["dpkg-deb", "--root-owner-group", "-Zxz", "--build", root, f"{work}/{package}"]
    subprocess.run(words, check=True, capture_output=True, env={**os.environ, "SOURCE_DATE_EPOCH": str(epoch)})
    return package, read(f"{work}/{package}")


def erased_sources(work):
    """The files of the package that release/erased makes of the proved sources, without its tests, which read the repository's corpus."""
    done = subprocess.run([sys.executable, "release/erased/erase.py", f"{work}/erased"], capture_output=True, text=True, check=False)
    if done.returncode != 0:
        fail(f"release/erased/erase.py: {done.stdout}{done.stderr}")
    return {name: read(f"{work}/erased/{name}") for name in files_in(f"{work}/erased") if not name.startswith("tests/")}


def targets_in(build):
    """The targets whose library was built: this machine's, and others in folders of their names."""
    return [name for name in TARGETS if os.path.exists(f"{build}/{name}/libhayro_ccitt_c.a")]


def crate(name, files, epoch):
    return f"{name}.crate", packed_tar([(f"{name}/{file}", 0o644, data) for file, data in files.items()], epoch)


def cargo_package(erased, told, epoch):
    """The proved sources with their contracts erased."""
    return crate(CRATE, {**erased, "PROVENANCE": told.encode()}, epoch)


def proved_cargo_package(build, told, epoch):
    """The package of bindings/rust, with the library as the kit made it for each target that was built, its functions placed by the
    Makefile."""
    files = {name.removeprefix("bindings/rust/"): read(name) for name in tracked() if name.startswith("bindings/rust/")}
    files = {name: data for name, data in files.items() if not name.startswith("tests/") and name != ".gitignore"}
    files |= {
        **{f"proved/libhayro_ccitt_c{name and '-'}{name}.a": read(f"{build}/{name}/libhayro_ccitt_c.a") for name in targets_in(build)},
        "proved/heap.c": read("c/heap.c"),
        "proved/hayro_ccitt_heap.h": read("c/hayro_ccitt_heap.h"),
        "PROVENANCE": told.encode(),
    }
    return crate(PROVED_CRATE, files, epoch)


def wheel(build, version, target, told, epoch):
    """The Python package with the shared library in it."""
    library = f"{build}/libhayro_ccitt.so.{version}"
    interface = version.rpartition(".")[0]
    for name, line in (("__init__", f'__version__ = "{version}"'), ("_library", f'SONAME = "libhayro_ccitt.so.{interface}"')):
        if line not in read(f"bindings/python/hayro_ccitt/{name}.py").decode():
            fail(f"bindings/python/hayro_ccitt/{name}.py isn't of version {version}")
    platform = f"manylinux_{'_'.join(map(str, newest_libc([library])))}_{target.machine}"
    files = {
        **python_modules(),
        "hayro_ccitt/libhayro_ccitt.so": read(library),
        f"hayro_ccitt-{version}.dist-info/PROVENANCE": told.encode(),
    }
    return build_backend.packed_wheel(version, platform, files)


def python_modules():
    """The modules of the Python package."""
    modules = [name for name in tracked() if re.match(r"bindings/python/hayro_ccitt/[^/]+(\.py|py\.typed)$", name)]
    return {name.removeprefix("bindings/python/"): read(name) for name in modules}


def python_sources(version, erased, told, epoch):
    """The Python package with the erased sources, of which pip makes a wheel by cargo."""
    top = f"hayro_ccitt-{version}"
    files = {
        **python_modules(),
        **{f"rust/{name}": data for name, data in erased.items()},
        **{name: read(f"bindings/python/{name}") for name in ("build_backend.py", "pyproject.toml")},
        "PKG-INFO": build_backend.metadata(version).encode(),
        "PROVENANCE": told.encode(),
    }
    return f"{top}.tar.gz", packed_tar([(f"{top}/{name}", 0o644, data) for name, data in files.items()], epoch)


def javascript_package(folder, version, told, epoch):
    """The package for JavaScript with the modules in a folder, laid out as `npm pack` does it."""
    modules = {name: read(f"{folder}/{name}") for name in javascript.MODULES.values()}
    files = {**javascript.sources(), **modules, "PROVENANCE": told.encode()}
    if json.loads(files["package.json"])["version"] != version:
        fail(f"bindings/javascript/package.json isn't of version {version}")
    return f"hayro-ccitt-{version}.tgz", packed_tar([(f"package/{name}", 0o644, data) for name, data in files.items()], epoch)


def source_tarball(build, version, erased, told, epoch, work):
    """What a C compiler builds: the proved object as assembly, and the C files. And what Rust builds for other targets."""
    top = f"hayro_ccitt-{version}-src"
    root = f"{work}/source"
    assembly = subprocess.run([sys.executable, "release/assembly.py", f"{build}/proved.o"], capture_output=True, check=False)
    if assembly.returncode != 0:
        fail(assembly.stderr.decode())
    write(f"{root}/proved.s", assembly.stdout)
    strip = "corpus/strips/page/gs-g4"
    for name in [it for it in tracked() if it.startswith("c/") or it == "man/hayro_ccitt.3"] + ["CHANGELOG.md", "SECURITY.md", strip, "corpus/pictures/page"]:
        write(f"{root}/{name}", read(name))
    for name in [it for it in tracked() if re.match(r"examples/[^/]*\.[ch]$", it)]:
        write(f"{root}/{name}", read(name))
    for name, data in erased.items():
        write(f"{root}/rust/{name}", data)
    write(f"{root}/Makefile", read("release/source.mk"))
    write(f"{root}/README", read("release/source.txt"))
    write(f"{root}/PROVENANCE", told)
    return f"{top}.tar.gz", packed_tar(entries_of(root, top), epoch)


def main(build, version, name=""):
    if name not in TARGETS:
        fail(f"no release is made for {name}: for {', '.join(filter(None, TARGETS))}, and without TARGET for x86-64")
    target = TARGETS[name]
    if not re.search(rf"^## {re.escape(version)}\b", read("CHANGELOG.md").decode(), re.MULTILINE):
        fail(f"CHANGELOG.md has no version {version}")
    library = f"libhayro_ccitt.so.{version}"
    needed = ["libhayro_ccitt_c.a", "proved.o", "libhayro_ccitt.a", library]
    if missing := [it for it in [*needed, *PROGRAMS] if not os.path.exists(f"{build}/{it}")]:
        fail(f"{build} has no {missing[0]}: run `make` first")
    if other := [it for it in ["proved.o", library, *PROGRAMS] if not is_for(target, f"{build}/{it}")]:
        fail(f"{build}/{other[0]} isn't for {target.title}")
    if lacking := [tool for tool in ("dpkg-deb", "objdump", f"{target.tools}strip", "rustfmt") if not shutil.which(tool)]:
        fail(f"it takes {', '.join(lacking)}")
    epoch = int(os.environ.get("SOURCE_DATE_EPOCH") or said("git", "log", "-1", "--format=%ct") or 315532800)
    told = provenance(build, version, name)
    with tempfile.TemporaryDirectory() as work:
        packages = [
            binary_tarball(build, version, target, told, epoch, work),
            debian_package(build, version, target, told, epoch, work),
            wheel(build, version, target, told, epoch),
        ]
        if not name:
            erased = erased_sources(work)
            packages += [
                cargo_package(erased, told, epoch),
                proved_cargo_package(build, told, epoch),
                source_tarball(build, version, erased, told, epoch, work),
                python_sources(version, erased, told, epoch),
            ]
            if os.path.exists(f"{build}/javascript"):
                packages.append(javascript_package(f"{build}/javascript", version, told, epoch))
            if os.path.exists(page := f"{build}/fax.html"):
                packages.append((f"hayro_ccitt-{version}-fax.html", read(page)))
    shutil.rmtree(f"{build}/dist", ignore_errors=True)
    for package, data in packages:
        write(f"{build}/dist/{package}", data)
    write(f"{build}/dist/SHA256SUMS", "".join(f"{sha256(data)}  {package}\n" for package, data in packages))
    print("\n".join(f"{build}/dist/{package} ({len(data)} bytes)" for package, data in packages))


if __name__ == "__main__":
    main(*sys.argv[1:])
