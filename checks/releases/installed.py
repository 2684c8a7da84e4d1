"""Checks of what `make install` installs: the headers by C89 and C++98, both libraries by hayro_ccitt.pc and by CMake, what the shared
one exports, a program's own allocator, the manual pages and the version."""
import filecmp
import os
import re
import shutil
import subprocess
import tempfile
from pathlib import Path

from c import c_library
from gate.skipped import leave_out

C89 = ["-std=c89", "-pedantic", "-Wall", "-Wextra", "-Werror"]
CXX98 = ["-std=c++98", "-pedantic", "-Wall", "-Wextra", "-Werror"]
# The allocator of the program, which counts.
OWN_HEAP = r"""
#include <hayro_ccitt.h>
#include <hayro_ccitt_heap.h>
#include <stdio.h>
#include <stdlib.h>

static int taken, freed;

rattle_tried rattle_alloc(size_t size, size_t align)
{
    rattle_tried tried;
    tried.block = malloc(size ? size : align);
    tried.ok = tried.block != NULL;
    taken++;
    return tried;
}

rattle_tried rattle_realloc(void *block, size_t kept, size_t size, size_t align)
{
    rattle_tried tried;
    (void)kept;
    tried.block = realloc(block, size ? size : align);
    tried.ok = tried.block != NULL;
    return tried;
}

void rattle_dealloc(void *block)
{
    freed++;
    free(block);
}

int main(void)
{
    static const uint8_t data[2] = {0x31, 0xC0};
    hayro_ccitt_settings settings;
    hayro_ccitt_outcome outcome;
    settings.columns = 8;
    settings.rows = 1;
    settings.encoding = HAYRO_CCITT_GROUP_4;
    settings.flags = 0;
    settings.stride = 0;
    if (hayro_ccitt_measure(data, 2, &settings, &outcome) != HAYRO_CCITT_OK || outcome.changes != 2)
        return 1;
    printf("%s\n", taken > 0 && taken == freed ? "own" : "other");
    return 0;
}
"""
# A program linked with each library of the package in a version.
CMAKE_LISTS = """\
cmake_minimum_required(VERSION 3.10)
project(first C)
find_package(hayro_ccitt {} REQUIRED)
add_executable(with_shared first.c)
target_link_libraries(with_shared hayro_ccitt::hayro_ccitt)
add_executable(with_static first.c)
target_link_libraries(with_static hayro_ccitt::static)
"""
HEADERS = "#include <fax_encode.h>\n#include <hayro_ccitt.h>\n#include <hayro_ccitt_heap.h>\nint main(void) { return HAYRO_CCITT_OK; }\n"


def run(*words, **more):
    done = subprocess.run(words, capture_output=True, text=True, check=False, timeout=600, **more)
    assert done.returncode == 0, f"{' '.join(words)}\n{done.stdout[-2000:]}{done.stderr[-2000:]}"
    return done.stdout


def written(path, text):
    Path(path).write_text(text, encoding="utf-8")
    return path


def first_program():
    """The program on the first page of hayro_ccitt.h."""
    with open("c/hayro_ccitt.h", encoding="utf-8") as file:
        lines = [line[5:] for line in file if line.startswith(" *   ") and not line.startswith(" *   cc ")]
    return "".join(lines)


def installed():
    """Everything is installed, and works with the flags of hayro_ccitt.pc, from C and from C++."""
    missing = [tool for tool in ("make", "gcc", "g++", "pkg-config", "objcopy") if not shutil.which(tool)]
    if missing:
        leave_out("make install", ", ".join(missing))
        return
    runs = 0
    with tempfile.TemporaryDirectory() as folder:
        # what is proved is built by now
        c_library.build()
        words = ["RT=true", f"BUILD={folder}/build", f"PREFIX={folder}/prefix"]
        run("make", *words)
        run("make", *words, f"DESTDIR={folder}/staged", "install")
        run("make", *words, "install")
        for root in (f"{folder}/prefix", f"{folder}/staged{folder}/prefix"):
            for name in ("bin/faxrows", "bin/faxpack", "bin/faxconv", "bin/fax2pbm", "share/man/man1/faxconv.1", "share/bash-completion/completions/faxconv", "lib/libhayro_ccitt.a", "lib/libhayro_ccitt.so", "include/hayro_ccitt_heap.h",
                         "share/man/man1/faxrows.1", "share/man/man1/faxpack.1", "share/man/man3/hayro_ccitt.3", "lib/pkgconfig/hayro_ccitt.pc", "lib/cmake/hayro_ccitt/hayro_ccitt-config.cmake"):
                assert os.path.exists(f"{root}/{name}"), f"{root}/{name}"
        library = f"{folder}/prefix/lib"
        find = {**os.environ, "PKG_CONFIG_PATH": f"{library}/pkgconfig", "LD_LIBRARY_PATH": library}
        shared = run("pkg-config", "--cflags", "--libs", "hayro_ccitt", env=find).split()
        static = [word for word in shared if not word.startswith("-l")] + [f"{library}/libhayro_ccitt.a"]
        version = run("pkg-config", "--modversion", "hayro_ccitt", env=find).strip()
        versions_agree(version)
        files_are_right(f"{folder}/prefix", version)
        texts = [("first", first_program(), "18\n"), ("own", OWN_HEAP, "own\n"), ("headers", HEADERS, "")]
        for name, text, printed in texts:
            for compiler, flags, ending in (("gcc", C89, "c"), ("g++", CXX98, "cc"), ("gcc", ["-std=c11", "-Wall", "-Werror"], "c")):
                source = written(f"{folder}/{name}.{ending}", text)
                for link in (shared, static):
                    run(compiler, *flags, source, "-o", f"{folder}/{name}", *link)
                    told = run(f"{folder}/{name}", env=find)
                    assert told == printed, f"{name}: {told}"
                    runs += 1
        for compiler, flags, name in (("gcc", C89, "heap"), ("g++", [*CXX98, "-x", "c++"], "heap"), ("gcc", C89, "calls"), ("g++", [*CXX98, "-x", "c++"], "calls")):
            run(compiler, *flags, "-c", f"c/{name}.c", "-o", f"{folder}/object")
        symbols_are_listed(f"{library}/libhayro_ccitt.so")
        found_by_cmake(f"{folder}/staged{folder}/prefix", version, folder)
        run("make", *words, "uninstall")
        left = [name for _, _, names in os.walk(f"{folder}/prefix") for name in names]
        assert not left, left
    print(f"  version {version}; {runs} programs, by C89, C11 and C++98, with both libraries")


def symbols_are_listed(library):
    """The shared library exports the calls of symbols.txt, and no others."""
    listed = Path("checks/releases/symbols.txt").read_text(encoding="utf-8").splitlines()[1:]
    exported = run("nm", "-D", "--defined-only", library).split()[2::3]
    assert exported == listed, f"added: {sorted({*exported} - {*listed})}; lost: {sorted({*listed} - {*exported})}"


def found_by_cmake(prefix, version, folder):
    """CMake finds the package in a folder other than that of PREFIX, in its version and older ones of its interface, and builds a
    program with each of its targets."""
    if not shutil.which("cmake"):
        leave_out("the CMake package", "cmake")
        return
    major, minor, patch = map(int, version.split("."))
    wanted = {version: True, f"{major}.{minor}": True, "": True, f"{major}.{minor}.{patch + 1}": False,
              f"{major}.{minor + 1}": False, f"{major + 1}.{minor}": False, f"{major}.{minor - 1}": False}
    for number, (asked, is_found) in enumerate(wanted.items()):
        os.makedirs(f"{folder}/project{number}")
        written(f"{folder}/project{number}/first.c", first_program())
        written(f"{folder}/project{number}/CMakeLists.txt", CMAKE_LISTS.format(asked))
        words = ["cmake", "-S", f"{folder}/project{number}", "-B", f"{folder}/cmake{number}", f"-DCMAKE_PREFIX_PATH={prefix}"]
        done = subprocess.run(words, capture_output=True, text=True, check=False, timeout=600)
        assert (done.returncode == 0) == is_found, f"version {asked}: {done.stdout}{done.stderr}"
    run("cmake", "--build", f"{folder}/cmake0")
    for program in ("with_shared", "with_static"):
        assert run(f"{folder}/cmake0/{program}") == "18\n", program
    needed = [run("objdump", "-p", f"{folder}/cmake0/{program}").count("libhayro_ccitt.so") for program in ("with_shared", "with_static")]
    assert needed == [1, 0], needed


def files_are_right(prefix, version):
    """The manual pages and headers are those of the repository, and the shared library's name has two numbers of the version."""
    pages = [(f"man/{name}", f"{prefix}/share/man/man{name[-1]}/{name}") for name in sorted(os.listdir("man"))]
    headers = [(f"c/{name}", f"{prefix}/include/{name}") for name in sorted(os.listdir("c")) if name.endswith(".h")]
    for own, there in [*pages, *headers]:
        assert filecmp.cmp(own, there, shallow=False), f"{there} isn't {own}"
    soname = re.search(r"^ *SONAME +(\S+)$", run("objdump", "-p", f"{prefix}/lib/libhayro_ccitt.so"), re.MULTILINE)[1]
    assert soname == f"libhayro_ccitt.so.{'.'.join(version.split('.')[:2])}", soname


def versions_agree(version):
    """One version: of the header, hayro_ccitt.pc, the programs, the manual pages, the Python package and CHANGELOG.md."""
    header = Path("c/hayro_ccitt.h").read_text(encoding="utf-8")
    number = 0
    for part in version.split("."):
        number = 100 * number + int(part)
    assert f"#define HAYRO_CCITT_VERSION {number}\n" in header, version
    newest = re.search(r"^## (\S+)", Path("CHANGELOG.md").read_text(encoding="utf-8"), re.MULTILINE).group(1)
    assert newest == version, f"CHANGELOG.md: {newest}, not {version}"
    for program in ("faxrows", "faxpack"):
        with open(f"crates/{program}/src/main.rt", encoding="utf-8") as file:
            assert f'const VERSION: &str = "{program} {version}";\n' in file.read(), version
    assert f'const VERSION: &str = "{version}";\n' in Path("crates/faxconv/src/main.rt").read_text(encoding="utf-8"), version
    for name in sorted(Path("man").iterdir()):
        assert f'"hayro_ccitt {version}"' in name.read_text(encoding="utf-8"), name
    assert f'__version__ = "{version}"\n' in Path("bindings/python/hayro_ccitt/__init__.py").read_text(encoding="utf-8"), version


def manual_pages_warn_of_nothing():
    """`man` and `mandoc` warn of nothing in a manual page."""
    readers = ["man", "--warnings", "-l"], ["mandoc", "-Tlint", "-W", "warning"]
    missing = [words[0] for words in readers if not shutil.which(words[0])]
    if missing:
        leave_out("the manual pages", missing[0])
        return
    for page in sorted(Path("man").iterdir()):
        for words in readers:
            done = subprocess.run([*words, page], capture_output=True, text=True, check=False)
            warned = done.stderr + (done.stdout if words[0] == "mandoc" else "")
            assert done.returncode == 0 and not warned, f"{page}: {warned}"
    print(f"  {len(list(Path('man').iterdir()))} pages")


CHECKS = [installed, manual_pages_warn_of_nothing]
