"""What an `rt ci` makes that runs beside other checks of the same files: libraries and programs."""
import os
import re
import shutil
import time
from pathlib import Path

from gate.built import BUILT, note, put, sources


# How often a folder is copied again, a second later each time, if it changes meanwhile.
MOST_COPIES = 60


def files_of(folder):
    """Each file below a folder, with its size and when it was written."""
    found = {}
    for where, _, names in os.walk(folder):
        for name in names:
            status = os.stat(f"{where}/{name}")
            found[f"{where}/{name}"] = status.st_size, status.st_mtime_ns
    return found


def copy_settled(built, own):
    """Copies a library's folder, the only one in its own. `rt ci` may make it anew meanwhile: then it is copied again."""
    for _ in range(MOST_COPIES):
        shutil.rmtree(os.path.dirname(own), ignore_errors=True)
        try:
            before = files_of(built)
            shutil.copytree(built, own)
            if before and files_of(built) == before:
                return
        except (shutil.Error, FileNotFoundError):
            pass  # a file is gone
        time.sleep(1)
    raise TimeoutError(f"{built} changes all the time")


class Beside:
    """An `rt ci` that runs beside. The folder has what it prints, in the file `ci`; the path of its checkout, in the file `checkout`;
    and, once it has ended, the file `ci.end`."""

    def __init__(self, folder):
        self.folder = folder
        self.checkout = Path(f"{folder}/checkout").read_text(encoding="utf-8").strip()

    def has_ended(self):
        return os.path.exists(f"{self.folder}/ci.end")

    def said(self):
        """What it has printed so far."""
        if not os.path.exists(f"{self.folder}/ci"):
            return ""
        return Path(f"{self.folder}/ci").read_text(encoding="utf-8", errors="replace")

    def is_proved(self, crate):
        """Waits until it has a verdict on a crate, and returns whether the crate is proved."""
        while True:
            has_ended = self.has_ended()
            verdict = re.search(rf"^rt: {crate.name} (proved|is kept:|NOT PROVED)", self.said(), re.MULTILINE)
            if verdict or has_ended:
                return bool(verdict) and verdict[1] != "NOT PROVED"
            time.sleep(3)

    def take_built(self, crate):
        """Copies a proved crate's library, so that `rt` takes it for its own, or its program. Returns whether there is one."""
        made_from = sources(crate.name, self.checkout)
        if made_from != sources(crate.name):
            raise RuntimeError(f"{crate.name} isn't in {self.checkout} what it is here")
        path = f"rlib/{crate.name}.rlib" if crate.makes_rlib() else crate.name
        built, own = f"{self.checkout}/crates/{crate.name}/out/{path}", f"{crate.folder}/out/{path}"
        if not os.path.exists(built):
            return False
        if crate.makes_rlib():
            copy_settled(built, own)
            Path(f"{os.path.dirname(own)}/stamp").write_text(crate.stamp(), encoding="utf-8")
        else:
            put(built, own)
            if crate.name in BUILT:
                note(own, made_from)
        return True
