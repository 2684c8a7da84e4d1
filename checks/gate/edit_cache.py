"""What refused edits in earlier runs on this machine, so that they needn't be tried again: as the kit's `rt ci` keeps what it passed."""
import functools
import hashlib
import os
from pathlib import Path


class RefusedBefore:
    """A file for each edit that was refused, named by a sum of all that its verdict rests on: the edit, its crate, the crates below,
    the kit, and the programs that judge it. It has what refused the edit."""

    def __init__(self, programs):
        cache = os.environ.get("XDG_CACHE_HOME") or os.path.expanduser("~/.cache")
        self.folder, self.programs = f"{cache}/hayro_ccitt/edits", [text_of(program) for program in programs]
        self.stamp = functools.cache(lambda crate: crate.stamp())
        self.stamp_at_the_end = functools.cache(lambda crate: crate.stamp())

    def path(self, edit):
        stands_on = repr((edit.text, edit.label, self.stamp(edit.crate), self.programs))
        return f"{self.folder}/{hashlib.sha256(stands_on.encode()).hexdigest()}"

    def reason(self, edit):
        """What refused the edit before, or None."""
        path = self.path(edit)
        return text_of(path) if os.path.exists(path) else None

    def keep(self, edit, reason):
        """Keeps what refused the edit, once all are tried, unless a file of its crate changed meanwhile."""
        if self.stamp_at_the_end(edit.crate) != self.stamp(edit.crate):
            return
        path = self.path(edit)
        os.makedirs(self.folder, exist_ok=True)
        Path(f"{path}.{os.getpid()}").write_text(reason, encoding="utf-8")
        os.replace(f"{path}.{os.getpid()}", path)


def text_of(path):
    return Path(path).read_text(encoding="utf-8")
