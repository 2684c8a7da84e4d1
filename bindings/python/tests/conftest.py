"""The corpus of the repository, and the answers of C to its cases."""
import os
import subprocess
import sys
from pathlib import Path

import pytest

ROOT = Path(__file__).resolve().parents[3]
sys.path.insert(0, str(ROOT / "bindings/python"))
os.environ.setdefault("HAYRO_CCITT_LIBRARY", str(ROOT / "build/libhayro_ccitt.so"))
MODES = {"g4": -1, "1d": 0, "2d": 1}


def lines_of(name):
    with open(ROOT / "corpus" / name, encoding="utf-8") as file:
        return [line.rstrip("\n").split("\t") for line in file if not line.startswith("#")]


def keys_of(words):
    """The arguments of `decode` for MODE COLUMNS ROWS FLAGS."""
    mode, columns, rows, flags = words.split()
    return {
        "columns": int(columns),
        "rows": int(rows),
        "k": MODES[mode],
        "end_of_block": "b" in flags,
        "end_of_line": "l" in flags,
        "encoded_byte_align": "a" in flags,
        "strict": "s" in flags,
        "low_first": "r" in flags,
        "black_is_1": True,
    }


def damaged(data):
    yield data
    yield data[: len(data) // 2]
    for part in (1, 2, 3):
        place = len(data) * part // 4
        yield data[:place] + bytes([data[place] ^ 0xFF]) + data[place + 1 :]


def strips():
    """Of each strip and each of its settings: the words, the data, and the picture."""
    for name, strip, mode, columns, rows, settings, picture, first, *_ in lines_of("manifest.tsv"):
        width = (int(columns) + 7) // 8
        data = (ROOT / "corpus" / strip).read_bytes()
        bits = (ROOT / "corpus" / picture).read_bytes()[int(first) * width : (int(first) + int(rows)) * width]
        for setting in settings.split(","):
            limit, flags = setting.split(":")
            yield f"{mode} {columns} {limit} {flags}", data, bits


def stored_cases():
    """The stored cases without repetitions, and not too wide: the words and the data."""
    for words, digits, _ in lines_of("cases.tsv"):
        if "*" not in digits and "+" not in digits and int(words.split()[1]) <= 1 << 16:
            yield words, bytes.fromhex(digits.replace("-", ""))


@pytest.fixture(scope="session")
def answers(tmp_path_factory):
    """The cases and, of each, the lines of answers.c."""
    folder = tmp_path_factory.mktemp("answers")
    library = os.environ["HAYRO_CCITT_LIBRARY"]
    source, program = str(ROOT / "checks/c/answers.c"), str(folder / "answers")
    found = f"-Wl,-rpath,{os.path.dirname(library)}"
    subprocess.run(["cc", "-O2", f"-I{ROOT}/c", source, library, found, "-o", program], check=True)
    narrow = [(words, part) for words, data, _ in strips() if " 1240 " not in words for part in damaged(data)]
    cases = [*narrow, *stored_cases()]
    text = "".join(f"{words} {data.hex() or '-'}\n" for words, data in cases)
    done = subprocess.run([program], input=text, capture_output=True, text=True, check=True)
    answered = done.stdout.split("packed ")[1:]
    assert len(answered) == len(cases)
    lines = [[line.split() for line in f"packed {answer}".splitlines()] for answer in answered]
    return [(words, data, of) for (words, data), of in zip(cases, lines)]
