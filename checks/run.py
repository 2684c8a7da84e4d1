"""The repository's own checks. The last line is 'N passed, M failed', and what was left out because a tool is missing.

    python3 checks/run.py                  all of them
    python3 checks/run.py NAME             those of one file, or one check: repository, program, cost.slow_shapes ..
    python3 checks/run.py --without NAME   all but those of one file
    python3 checks/run.py NAME COMMAND ..  what else a file does: fax mutated N SEED; fax_limits edges N SEED;
                                           repository --write, which writes the lists of places anew

README.md says which file checks what. Several checks run in parallel, each in a process of its own: one for each processor.
"""
import os
import subprocess
import sys
import traceback
from concurrent.futures import ThreadPoolExecutor

os.chdir(os.path.join(os.path.dirname(os.path.abspath(__file__)), ".."))
sys.dont_write_bytecode = True

import cost  # noqa: E402
from c import arm64, c_library, cuts, encoder, feed, hostile, inline_images, large, memory, refusals, row_by_row  # noqa: E402
from gate import built  # noqa: E402
from gate.skipped import LEFT_OUT  # noqa: E402
from programs import built_tests, claims, conformance, devices, directories, fax, fax_limits, fax_memory, fax_others, fax_output, faxconv, files, guesses, objects, outputs, packing, pages, pictures, program, shown, streams  # noqa: E402
from releases import browsers, clients, erased, erased_programs, erased_targets, installed, javascript, released, released_arm64, systems, users, web  # noqa: E402
from repository import definitions, repository  # noqa: E402


FILES = [
    *(repository, definitions),
    *(program, claims, pictures, built_tests, packing, conformance, streams, directories, pages, objects, outputs, faxconv),
    *(c_library, row_by_row, feed, encoder, refusals, devices, cuts, hostile, memory, large),
    *(installed, users, files, fax, fax_output, fax_limits, fax_memory, fax_others, guesses, shown, inline_images),
    *(released, systems, erased, erased_programs, erased_targets, javascript, browsers, web, clients, cost, arm64, released_arm64),
]
# those that run beside the build of the library for C, as they don't use it
WITHOUT_LIBRARY = [repository, definitions, program, claims, pictures, built_tests, packing, conformance, streams, directories, pages, objects, outputs, faxconv, fax,
                   fax_limits, fax_memory, fax_others, fax_output, devices, browsers, web]
# those that call `make`, which run in turn, and those that take longest
MAKE = [installed, users, files, arm64, released_arm64]
LONG = [cost, large, memory, hostile, released, systems, fax_limits]
# those that build by cargo, in one folder, in turn
ERASED = [erased, erased_programs, erased_targets, javascript, browsers, web]
# The files by their names.
NAMED = {it.__name__.rpartition(".")[2]: it for it in FILES}


def names_of(file):
    name = file.__name__.rpartition(".")[2]
    return [f"{name}.{check.__name__}" for check in file.CHECKS]


def run_one(name):
    """Runs a check here. Returns whether it passed."""
    file, _, check = name.partition(".")
    began = seconds_used()
    try:
        next(it for it in NAMED[file].CHECKS if it.__name__ == check)()
    except Exception:
        print(f"{check}: FAILED")
        traceback.print_exc(file=sys.stdout)
        return False
    print(f"{check}: ok, {seconds_used() - began:.0f} s of processor")
    return True


def seconds_used():
    """The seconds of processor of this process and of those that it has waited for."""
    times = os.times()
    return times.user + times.system + times.children_user + times.children_system


def run_beside(name, library):
    """Runs a check in a process of its own, once the library for C is built if it is one that may use it. Returns its output."""
    try:
        if library:
            library.result()
    except Exception as error:
        return f"{name}: FAILED, as the library for C isn't built: {error}\n0 passed, 1 failed"
    done = subprocess.run([sys.executable, "checks/run.py", name], stdout=subprocess.PIPE, stderr=subprocess.STDOUT, text=True, check=False)
    return done.stdout or f"{name}: ended with status {done.returncode}\n0 passed, 1 failed"


def run_in_parallel(chosen):
    """Runs the checks of these files. Returns the output of each."""
    outputs = {}
    with ThreadPoolExecutor(1) as builder, ThreadPoolExecutor(len(os.sched_getaffinity(0))) as pool:
        library = builder.submit(c_library.build) if {*chosen} - {*WITHOUT_LIBRARY} else None

        def run_in_turn(checks):
            for it, name in checks:
                outputs[name] = run_beside(name, None if it in WITHOUT_LIBRARY else library)

        checks = [(it, name) for it in sorted(chosen, key=lambda it: (it not in WITHOUT_LIBRARY, it not in LONG)) for name in names_of(it)]
        turns = [[check for check in checks if check[0] in together] for together in (ERASED, MAKE)]
        turns += [[check] for check in checks if check[0] not in [*ERASED, *MAKE]]
        turns = sorted(filter(None, turns), key=lambda turn: turn[0][0] not in WITHOUT_LIBRARY)
        for running in [pool.submit(run_in_turn, turn) for turn in turns]:
            running.result()
    return [outputs[name] for it in chosen for name in names_of(it)]


def main():
    words = sys.argv[1:]
    if words and "." in words[0]:
        passed = run_one(words[0])
        summary(int(passed), int(not passed), LEFT_OUT)
    if len(words) > 1 and words[1] in getattr(NAMED.get(words[0]), "COMMANDS", {}):
        count = NAMED[words[0]].COMMANDS[words[1]](*map(int, words[2:]))
        print("done" if count is None else f"{count} files")
        sys.exit()
    is_without = words[:1] == ["--without"]
    unknown = {*words[is_without:]} - {*NAMED}
    if unknown:
        sys.exit(f"no file of checks is named {', '.join(sorted(unknown))}")
    chosen = [it for name, it in NAMED.items() if not words or (name in words) != is_without]
    if {*chosen} - {repository, definitions, built_tests, browsers, web}:
        built.have("faxrows")
        built.have("faxpack")
    if streams in chosen:
        built.have("test_streams")
    if {directories, pages} & {*chosen}:
        built.have("test_files")
    if outputs in chosen:
        built.have("test_outputs")
    if {fax, fax_limits, fax_others, fax_output, faxconv} & {*chosen}:
        built.have("faxconv")
    passed, failed, left_out = 0, 0, []
    for *lines, last in map(str.splitlines, run_in_parallel(chosen)):
        print(*lines, sep="\n", flush=True)
        is_passed = last.startswith("1 passed, 0 failed")
        passed, failed = passed + is_passed, failed + (not is_passed)
        left_out += [it for it in last.partition("; left out: ")[2].split(", ") if it]
    summary(passed, failed, left_out)


def summary(passed, failed, left_out):
    """Prints the last line, and ends with the status."""
    print(f"{passed} passed, {failed} failed" + (f"; left out: {', '.join(left_out)}" if left_out else ""))
    sys.exit(1 if failed or not passed else 0)


if __name__ == "__main__":
    main()
