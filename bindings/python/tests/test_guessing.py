"""Guesses about raw data: of the corpus, damaged, and of files of other kinds."""
import subprocess
import sys
from pathlib import Path

import hayro_ccitt
import pytest
from conftest import MODES, ROOT, lines_of

# Narrower rows are read in many ways.
LEAST_COLUMNS = 33


def raw_files():
    """Each strip once, with the width, the encoding and the number of rows that corpus/manifest.tsv says."""
    files = {}
    for _, strip, mode, columns, rows, settings, *_ in lines_of("manifest.tsv"):
        if int(columns) >= LEAST_COLUMNS and int(rows) > 8 and "r" not in settings:
            files.setdefault(strip, (int(columns), MODES[mode], int(rows)))
    # Each third, since a width that isn't usual takes a second or more.
    return dict(list(files.items())[::3])


def other_files():
    """Files of other kinds: pictures, programs, texts and tables of the repository."""
    names = [name for folder in ("docs", "crates/fax_bits", "checks", "c") for name in sorted((ROOT / folder).rglob("*.*"))]
    return [name for name in names if name.is_file() and "out" not in name.parts and name.stat().st_size < 1 << 13][::12]


def test_most_raw_files_are_guessed():
    files = raw_files()
    first = {strip: next(iter(hayro_ccitt.guess((ROOT / "corpus" / strip).read_bytes())), None) for strip in files}
    right = [strip for strip, it in first.items() if it and (it.columns, it.k, it.rows) == files[strip]]
    assert len(files) >= 20 and len(right) >= 0.95 * len(files), sorted(files.keys() - set(right))


def test_a_guess_decodes():
    data = (ROOT / "corpus/strips/page/gs-g4").read_bytes()
    guess = hayro_ccitt.guess(data)[0]
    assert guess.picture(data) == hayro_ccitt.decode(data, **guess.keys)
    assert str(guess) == "1240 x 1754, Group 4"
    assert hayro_ccitt.guess(data, 1240)[0] == guess


def test_the_order_of_bits_is_guessed():
    data = (ROOT / "corpus/strips/page/gs-g3").read_bytes()
    turned = bytes(int(f"{byte:08b}"[::-1], 2) for byte in data)
    guess, low = hayro_ccitt.guess(data)[0], hayro_ccitt.guess(turned)[0]
    assert low == guess._replace(low_first=True)


def test_a_negative_is_guessed():
    white = hayro_ccitt.encode(bytes([0x0F] + [0] * 79) * 64, 640, k=-1, black_is_1=True)
    negative = hayro_ccitt.encode(bytes([0xF0] + [0xFF] * 79) * 64, 640, k=-1, black_is_1=True)
    assert [it.black_is_1 for it in hayro_ccitt.guess(white, 640)[:1] + hayro_ccitt.guess(negative, 640)[:1]] == [False, True]


@pytest.mark.parametrize("strip", ["gs-g3", "gs-g4"])
def test_damaged_data_is_guessed(strip):
    data = bytearray((ROOT / "corpus/strips/page" / strip).read_bytes())
    data[len(data) * 3 // 4] ^= 0xFF
    guess = hayro_ccitt.guess(bytes(data))[0]
    assert (guess.columns, guess.is_whole) == (1240, False)


def test_other_files_are_refused():
    files = other_files()
    taken = [str(name) for name in files if hayro_ccitt.guess(name.read_bytes())]
    assert len(files) >= 20 and len(taken) <= 1, taken
    assert hayro_ccitt.guess(b"") == []


def test_the_program_prints_guesses():
    strip = ROOT / "corpus/strips/page/gs-g4"
    words = [sys.executable, "-m", "hayro_ccitt", "guess"]
    done = subprocess.run([*words, strip], capture_output=True, text=True, cwd=ROOT / "bindings/python")
    assert (done.returncode, done.stdout.splitlines()[0]) == (0, "1240 x 1754, Group 4")
    done = subprocess.run([*words, Path(__file__)], capture_output=True, text=True, cwd=ROOT / "bindings/python")
    assert (done.returncode, done.stdout, done.stderr.split(": ")[-1]) == (1, "", "no fax data\n")
