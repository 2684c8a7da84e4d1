#!/usr/bin/env bash
# All tests, in three parts that run in parallel. `rt ci` proves every crate from scratch, here. On a copy of the repository run
# the edits (checks/edits.py), over the libraries that `rt ci` builds, and, once all is built, the repository's other checks
# (checks/run.py), except those of the test programs, which follow `rt ci`. The output of each part is printed when it has ended. The
# exit status is 0 if all passed.
cd "$(dirname "$0")" || exit 1
copy=$(mktemp -d) || exit 1
said=$(mktemp -d) || exit 1
parts=()
# Ends the parts that are still running, by their groups, and removes the folders.
clean() {
    for part in "${parts[@]}"; do
        kill -- "-$part" 2>/dev/null
    done
    rm -rf "$copy" "$said"
}
trap clean EXIT
trap 'exit 130' INT TERM
set -m

# The copy has the files that git tracks or would track, and what earlier checks stored in crates/*/out.
git ls-files -z --cached --others --exclude-standard | while IFS= read -r -d '' name; do
    [ -f "$name" ] && printf '%s\0' "$name"
done | tar --null --files-from - -cf - | tar -C "$copy" -xf - || exit 1
git -C "$copy" init -q && git -C "$copy" add -A || exit 1
for crate in crates/*/; do
    for kept in incremental rlib; do
        [ -d "$crate/out/$kept" ] && mkdir -p "$copy/$crate/out" && cp -r "$crate/out/$kept" "$copy/$crate/out/"
    done
done

# Runs a part: its output goes into a file of its name, and the second at which it ends into another.
part() {
    local name=$1 status
    shift
    "$@" >"$said/$name" 2>&1
    status=$?
    echo "$SECONDS" >"$said/$name.end"
    exit "$status"
}
# The repository's other checks, once the crates are built in the copy.
other_checks() {
    while [ ! -e "$said/ready" ] && [ ! -e "$said/edits.end" ]; do
        sleep 1
    done
    python3 "$copy/checks/run.py" --without built_tests
}
# The checks of the test programs, which `rt ci` builds.
built_tests() {
    while [ ! -e "$said/ci.end" ]; do
        sleep 1
    done
    python3 checks/run.py built_tests
}
# `rt ci` gives a proof that no other waits beside several processors. checks/edits.py has what the other parts leave, and at least one
# processor.
pwd >"$said/checkout" || exit 1
part ci rt ci &
ci=$!
part edits python3 "$copy/checks/edits.py" --ready "$said/ready" --ci "$said" --beside 1 &
edits=$!
part run other_checks &
run=$!
part tests built_tests &
tests=$!
parts+=("$ci" "$edits" "$run" "$tests")

failed=0
minutes() {
    printf '%d:%02d' $(($1 / 60)) $(($1 % 60))
}
totals=()
# Waits for a part, prints its output, and notes its last line and its minutes.
end() {
    local title=$1 name=$2 process=$3 status
    wait "$process"
    status=$?
    [ "$status" -eq 0 ] || failed=1
    printf '== %s\n' "$title"
    cat "$said/$name"
    totals+=("$title: $(tail -n 1 "$said/$name") (status $status, ended at $(minutes "$(cat "$said/$name.end")"))")
}
end "checks/run.py" run "$run"
end "checks/edits.py" edits "$edits"
end "rt ci" ci "$ci"
end "checks/run.py built_tests" tests "$tests"
printf '== all\n'
printf '%s\n' "${totals[@]}"
[ "$failed" -eq 0 ] && printf 'passed' || printf 'FAILED'
printf ', %s minutes\n' "$(minutes "$SECONDS")"
exit "$failed"
