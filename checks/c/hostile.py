"""Checks on small data of each shape that has broken fax decoders, and at the end of 32 bits: the results were worked out by an
independent model."""
import collections
import shutil
import subprocess
import tempfile

import corpus
from c import c_library, c_library_calls
from gate.skipped import leave_out
from programs import program

# of how many cases one is decoded under valgrind, by the library and by the program
IN_LIBRARY, IN_PROGRAM = 15, 180
VALGRIND = ["valgrind", "-q", "--error-exitcode=99", "--leak-check=full", "--show-leak-kinds=all", "--errors-for-leak-kinds=all"]


def hostile_cases():
    """Each case, by the library and by the program."""
    c_library.build()
    shapes = collections.Counter()
    with tempfile.TemporaryDirectory() as folder:
        library = c_library_calls.Library(folder)
        for shape, words, text, expected in corpus.lines_of("hostile.tsv"):
            data = corpus.bytes_of(text)
            assert library.answer(c_library_calls.settings_of(words), data) == expected, f"{words} {text}"
            assert c_library_calls.run(words, data) == expected, f"{words} {text}"
            shapes[shape] += 1
    assert len(shapes) == 9, shapes
    for shape, count in shapes.items():
        print(f"  {shape}: {count} cases")


def numbered(words, text):
    """A case as a line that `each_call.c` reads."""
    settings = c_library_calls.settings_of(words)
    return f"{settings.encoding} {settings.columns} {settings.rows} {settings.flags} {text}\n"


def answer_of(words):
    """The program's text of a line that `each_call.c` writes: status, bytes read, lists."""
    status, bytes_read, *numbers = map(int, words.split())
    lines = []
    while numbers:
        count, *numbers = numbers
        lines.append(" ".join(["r", *map(str, numbers[:count])]))
        numbers = numbers[count:]
    return "/".join([*lines, c_library_calls.TEXTS[status] if status else f"ok {bytes_read}"])


def small_cases():
    """The arguments, data and answer of each case whose data is written out."""
    return [case[1:] for case in corpus.lines_of("hostile.tsv") if "*" not in case[2]]


def lines_of(cases):
    """Cases as the text that `each_call.c` reads."""
    return "".join(numbered(words, text) for words, text, _ in cases)


def without_errors_of_memory():
    """A part of the cases under valgrind: no error, and no leaked block."""
    if not shutil.which("valgrind"):
        leave_out("accesses of memory", "valgrind")
        return
    c_library.build()
    cases = small_cases()
    with tempfile.TemporaryDirectory() as folder:
        driver = c_library.compiled(f"{folder}/each_call", "-DUNCOUNTED", "checks/c/each_call.c", c_library.LIBRARY)
        chosen = cases[::IN_LIBRARY]
        done = subprocess.run([*VALGRIND, driver], input=lines_of(chosen), capture_output=True, text=True, check=False, timeout=600)
        assert (done.returncode, done.stderr) == (0, ""), (done.returncode, done.stderr[-2000:])
        answers = [answer_of(line) for line in done.stdout.splitlines()]
        assert answers == [expected for _, _, expected in chosen], "other answers"
    runs = 0
    for words, text, expected in cases[::IN_PROGRAM]:
        for bitmap in ([], ["-o"]):
            command = [*VALGRIND, program.PROGRAM, *bitmap, *words.split()]
            if bitmap and int(words.split()[1]) > 1 << 20:
                continue
            done = subprocess.run(command, input=corpus.bytes_of(text), capture_output=True, check=False, timeout=60)
            assert done.returncode in (0, 1) and b"==" not in done.stderr, (words, text, done)
            assert bitmap or c_library_calls.text_of(done) == expected, (words, text, done)
            runs += 1
    assert chosen and runs
    print(f"  {len(chosen)} cases by each call of the library, {runs} runs of the program")


def by_each_library():
    """Each case by each call of the installed libraries, on the caller's memory between pages that may not be touched."""
    c_library.build()
    cases = small_cases()
    for printed in c_library.by_each_library("each_call", lines_of(cases)):
        assert [answer_of(line) for line in printed.splitlines()] == [expected for _, _, expected in cases], "other answers"
    print(f"  {len(cases)} cases")


CHECKS = [hostile_cases, by_each_library, without_errors_of_memory]
