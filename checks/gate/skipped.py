"""What was left out of a run of the checks because a tool is missing."""
import functools
import os
import re
import shutil
import subprocess
import sys

LEFT_OUT = []


@functools.cache
def has_all_packages():
    """Whether every package of the Makefile's list TESTED_WITH is installed, or a command of its name."""
    with open("Makefile", encoding="utf-8") as file:
        packages = re.search(r"^TESTED_WITH = ((?:.*\\\n)*.*)", file.read(), re.MULTILINE)[1].replace("\\\n", " ").split()
    is_installed = lambda it: shutil.which(it) or subprocess.run(["dpkg", "-s", it], capture_output=True, check=False).returncode == 0
    return bool(shutil.which("dpkg")) and all(map(is_installed, packages))


def leave_out(what, tool, is_listed=True):
    """Notes that a check, or a part of one, isn't done because a tool isn't installed. It fails on a machine that has all packages of
    TESTED_WITH, unless the tool comes with none of them."""
    assert not is_listed or not has_all_packages(), f"{what} would be left out, without {tool}, though all packages of TESTED_WITH are installed"
    print(f"  left out, without {tool}")
    LEFT_OUT.append(f"{what} (without {tool})")


def interpreter(*modules):
    """An interpreter of Python that has one of these modules; None if there is none."""
    for it in filter(os.path.exists, (sys.executable, "/usr/bin/python3")):
        code = f"import importlib.util, sys; sys.exit(not any(map(importlib.util.find_spec, {modules!r})))"
        if subprocess.run([it, "-c", code], check=False).returncode == 0:
            return it
    return None
