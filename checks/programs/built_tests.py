"""Checks of the built tests: those that name an allocation are run with that allocation refused."""
import os
import re
import subprocess
import tempfile

from gate.built import files_below, preload, with_libraries

# The tests of each crate that name allocations: how often each names one, and how many of these were made, and so refused. All
# others name none. A test that has each allocation refused in turn names one more than there are.
NAMED = {
    "test_encoder": {
        "callers_tests::refused_memory": (17, 12),
        "conforms_tests::refused_memory": (12, 8),
        "page_feed_tests::refused_memory": (20, 18),
        "settings_tests::refused_memory": (10, 8),
        "settings_tests::refused_memory_row_by_row": (11, 9),
        "settings_tests::wanting_memory_stays": (1, 1),
        "tests::refused_memory": (34, 28),
        "tests::sink_without_memory": (1, 0),
    },
    "test_faxrows": {
        "tests::refused_memory_by_row": (19, 5),
        "tests::refused_memory_of_checks": (19, 5),
        "tests::refused_memory_of_damage": (19, 6),
        "tests::sink_without_memory": (1, 0),
    },
    "test_decoder": {
        "tests::refused_memory::calls_without_memory": (1, 0),
        "tests::refused_memory::contexts_without_memory": (1, 0),
        "tests::refused_memory::pushed_rows_without_memory": (8, 6),
        "tests::refused_memory::reach_without_memory": (1, 0),
        "tests::refused_memory::refused_bodies": (2, 1),
        "tests::refused_memory::refused_growths_of_a_row": (8, 7),
        "tests::refused_memory::refused_rows": (8, 5),
        "tests::refused_memory::white_rows_without_memory": (5, 0),
    },
}


def built(crate):
    """The tests of a crate as a program. The gate builds them; they are proved and built here if a file is newer, of the crate or of one
    that it is built from."""
    path = f"crates/{crate}/out/{crate}_tests"
    files = [file for name in with_libraries(crate) for part in ("src", "specs", "proofs") for file in files_below(f"crates/{name}/{part}")]
    if not os.path.exists(path) or os.path.getmtime(path) <= max(map(os.path.getmtime, files)):
        done = subprocess.run(["rt", "test"], cwd=f"crates/{crate}", capture_output=True, text=True, check=False)
        assert done.returncode == 0 and os.path.exists(path), done.stdout[-2000:] + done.stderr[-2000:]
    return path


def refused_memory_in_tests():
    """Each test with the allocations that it names refused: it passes, and exactly the listed number are refused."""
    seen = refused = 0
    with tempfile.TemporaryDirectory() as folder:
        shim = preload(folder, "programs/refuse_named")
        for crate, expected in NAMED.items():
            tests = built(crate)
            listed = subprocess.run([tests, "--list"], capture_output=True, text=True, check=True).stdout
            names = re.findall(r"^(\S+): test$", listed, re.MULTILINE)
            found = {}
            for name in names:
                done = subprocess.run([tests, name], env={**os.environ, "LD_PRELOAD": shim}, capture_output=True, text=True, check=False, timeout=60)
                assert done.returncode == 0 and "test result: ok" in done.stdout, (crate, name, done.stdout, done.stderr)
                counts = tuple(map(int, re.fullmatch(r"(\d+) named, (\d+) refused\n", done.stderr).groups()))
                if counts != (0, 0):
                    found[name] = counts
                refused += counts[1]
                seen += 1
            assert found == expected, (crate, found)
    assert refused > 0
    print(f"  {seen} tests, {refused} requests refused in turn")


CHECKS = [refused_memory_in_tests]
