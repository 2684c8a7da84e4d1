"""Checks of the programs `faxrows` and `faxpack` that Rust compiles of the proved sources, as `make erased` writes them: those of the
proved programs. For ARM64, whose programs are these, the same in qemu, on fewer data."""
import os
import subprocess

from c import arm64
from gate import built
from gate.skipped import leave_out
from programs import devices, packing, program
from releases import erased, erased_targets

# one in so many strips and cases: in qemu each takes some ten times as long
FEW, FEWER = 4, 40


def programs_for(target=None):
    """The folder of the programs, for this machine or for a target whose std Rust's compiler has."""
    erased.make_package()
    words = ["--target", target] if target else []
    named = rust_for(target) if target else {}
    erased.run("cargo", "build", "-q", "--offline", "--profile", "programs", *words, cwd=f"{erased.PACKAGE}/programs", **named)
    return "/".join([f"{erased.BUILT}/target", *words[1:], "programs"])


def rust_for(target):
    """What cargo is told for a target: the linker, and Debian's compiler where the usual one lacks the target's std. None without either."""
    linker = {f"CARGO_TARGET_{target.replace('-', '_').upper()}_LINKER": erased_targets.TARGETS[target][0]}
    if has_std("rustc", target):
        return linker
    debian = erased_targets.rustc_of_debian(erased.BUILT)
    return {**linker, "RUSTC": debian} if has_std(debian, target) else None


def has_std(rustc, target):
    found = subprocess.run([rustc, "--print", "target-libdir", "--target", target], capture_output=True, text=True, check=False)
    return found.returncode == 0 and os.path.isdir(found.stdout.strip())


def check(folder, *checks):
    """Runs checks of the proved programs over those in a folder."""
    program.PROGRAM, packing.PROGRAM, program.HARMLESS = f"{folder}/faxrows", f"{folder}/faxpack", 0
    for one in checks:
        one()


# Those that take short data, and each stream and each allocation that fails.
EACH = [
    *(program.each_way, program.words_alone, program.rows_of_an_open_pipe, program.refused_memory),
    *(devices.writes_in_pieces, devices.real_signals, packing.packing_cases, packing.packing_without_memory),
]


def on_x86_64():
    """The checks of the proved programs, and of closed streams, on the programs that Rust compiles."""
    if erased.lacks_tools("the programs that Rust compiles"):
        return
    check(programs_for(), *EACH, program.closed_streams, devices.each_read_and_write, devices.readers_without_end)
    for data in (program.real_strips, program.known_cases, program.conforming_strips):
        data(FEW)


def emulated(folder):
    """A folder with scripts that run the programs of this one in qemu."""
    for name in ("faxrows", "faxpack"):
        path = f"{folder}/emulated/{name}"
        os.makedirs(os.path.dirname(path), exist_ok=True)
        with open(path, "w", encoding="utf-8") as file:
            file.write(f'#!/bin/sh\nexec qemu-aarch64 -L /usr/{arm64.CROSS} {folder}/{name} "$@"\n')
        os.chmod(path, 0o755)
    return f"{folder}/emulated"


def on_arm64():
    """The same in qemu on ARM64."""
    if erased.lacks_tools("the programs for ARM64"):
        return
    if arm64.lacking():
        leave_out("the programs for ARM64", arm64.lacking())
        return
    if rust_for(arm64.TARGET) is None:
        leave_out("the programs for ARM64", f"Rust's std for {arm64.TARGET}", is_listed=False)
        return
    built.COMPILER, built.IS_EMULATED = f"{arm64.CROSS}-gcc", True
    check(emulated(programs_for(arm64.TARGET)), *EACH)
    for data in (program.real_strips, program.known_cases, program.conforming_strips):
        data(FEWER)


CHECKS = [on_x86_64, on_arm64]
