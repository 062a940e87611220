#!/usr/bin/env bash
# Prints nanoseconds a node of what is done to each of a million nodes (push, iterate, find, pop), and nanoseconds a
# call of what moves half of them to another list and back (cut in the middle, append).
#
# The program is in bench/lists/, each file of the crate with .txt after its name: `rt ci` refuses .rt and .antt
# files that are no part of a crate in crates/. So it is made in a repository of its own, over copies of the crates that
# it measures. `rt run` builds what it proved and nothing else: the proof takes some minutes if `rt check` kept
# nothing, then the program runs for a second.
#
# usage: bench/lists.sh
set -euo pipefail
source "$(dirname "${BASH_SOURCE[0]}")/usage.sh"
takes 0 0 "$@"

top=$(cd "$(dirname "${BASH_SOURCE[0]}")/.." && pwd)
work=$(mktemp -d)
trap 'rm -rf "$work"' EXIT

# What the program calls, and what those crates stand on.
measured='tb_scaled tb_pool tb_node tb_break'

for crate in $measured; do
  mkdir -p "$work/crates/$crate"
  for part in src specs proofs; do
    cp -r "$top/crates/$crate/$part" "$work/crates/$crate/"
  done
  grep "^$crate:" "$top/crates.txt" >> "$work/crates.txt"
done
echo "bench_lists: $measured" >> "$work/crates.txt"

cd "$top/bench/lists"
find . -name '*.txt' | while read -r file; do
  install -D -m 644 "$file" "$work/crates/bench_lists/${file%.txt}"
done

# rt tells of its proofs on standard error: that is shown only if there is no figure.
cd "$work/crates/bench_lists"
if ! rt run > "$work/figures" 2> "$work/messages"; then
  cat "$work/messages" >&2
  exit 1
fi
cat "$work/figures"
