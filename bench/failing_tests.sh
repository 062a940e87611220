#!/usr/bin/env bash
# Makes each allocation of each test of a crate fail in turn, and prints in how many of these runs the test returned
# AllocError, as 'N of M'. A run that ended otherwise is printed. Fails if N is less than M, or if no test is found. A test
# that handles the failure itself counts as one that ended otherwise. Nothing is proved.
#
# usage: bench/failing_tests.sh CRATE [MODULE]   the tests of a crate, or those of one of its modules
set -euo pipefail
source "$(dirname "${BASH_SOURCE[0]}")/usage.sh"
takes 1 2 "$@"

bench=$(cd "$(dirname "${BASH_SOURCE[0]}")" && pwd)
crate=$(cd "$bench/../crates/$1" && pwd)
work=$(mktemp -d)
trap 'rm -rf "$work"' EXIT

PYTHONDONTWRITEBYTECODE=1 PYTHONPATH=$bench python3 - "$crate" "$work" "${2:-}" <<'PY'
import sys

from fail_alloc import ENDED, NUMBER, Build

crate, work, module = sys.argv[1:]


def run(built, number, test):
    """Runs one test whose allocation of this number fails. Returns whether it passed, and what it said."""
    status, out, line = built.run(number, [test])
    return status == 0, (out + line).decode(errors="replace").strip()


built = Build(crate, work, ["--test"], "/dev/null")
listed = run(built, NUMBER, "--list")[1].splitlines()
tests = [line.split(": ")[0] for line in listed if line.endswith(": test") and line.startswith(module)]
if not tests:
    sys.exit("no test is found")
told = failed = 0
for test in tests:
    number, passed = 0, []
    while len(passed) < ENDED:
        number += 1
        ok, said = run(built, number, test)
        if ok:
            passed.append(number)
            continue
        for before in passed:
            print(f"{test}, allocation {before}: passed")
        passed = []
        if said.startswith("error: AllocError\n"):
            told += 1
        else:
            print(f"{test}, allocation {number}: {said}")
    number -= ENDED
    failed += number
    print(f"{test}: {number} allocations")
print(f"{told} of {failed}")
sys.exit(told < failed)
PY
