#!/usr/bin/env bash
# Runs the program over input and output that fail: a pipe that nobody reads, a full device, a directory, closed streams. Prints the
# status of each run, and fails if a status, the line on standard error or what was written is not what docs/FORMATS.md says.
#
# usage: bench/failing_ends.sh [PROGRAM]   default crates/galley_pages/out/galley_pages, as `rt run` leaves it
set -eu
source "$(dirname "${BASH_SOURCE[0]}")/usage.sh"
takes 0 1 "$@"
top=$(cd "$(dirname "$0")/.." && pwd)
program=$(realpath "${1:-$top/crates/galley_pages/out/galley_pages}")
work=$(mktemp -d)
trap 'rm -rf "$work"' EXIT
failed=0
galley=$top/examples/three_boxes.galley
text=$top/examples/paragraph.lines

# A galley whose report is longer than a pipe holds, and a text that is no galley.
{
  echo 'galley 1'
  for ((k = 1; k <= 8000; k++)); do printf 'box b%s 7pt 2pt\nglue 3pt\n' "$k"; done
  echo end
} > "$work/long"
echo 'box a 1 0' > "$work/no-galley"

# expect LABEL STATUS LINE: the run that just ended left this status and this line on standard error, and kept to its report.
expect() {
  local label=$1 wanted=$2 line=$3 status
  status=$(cat "$work/status")
  echo "$label: status $status"
  if [ "$status" != "$wanted" ]; then
    echo "  wanted $wanted"
    failed=1
  fi
  if [ "$(cat "$work/err")" != "${line:+galley_pages: $line}" ]; then
    echo "  wanted on standard error: $line; found: $(cat "$work/err")"
    failed=1
  fi
  if ! cmp -s "$work/out" <(head -c "$(wc -c < "$work/out")" "$work/whole"); then
    echo "  what was written is no prefix of what the mode writes"
    failed=1
  fi
}

# whole INPUT WORDS..: what the mode writes if nothing fails. run WORDS..: a run whose status is kept.
whole() {
  local input=$1
  shift
  "$program" "$@" < "$input" > "$work/whole" 2> /dev/null || true
  : > "$work/out"
  : > "$work/err"
}
run() {
  local status=0
  "$program" "$@" || status=$?
  echo "$status" > "$work/status"
}

# fail_output MODE INPUT: standard output fails, with a reader that has gone, a full device, and no output at all.
fail_output() {
  whole "$2" --mode "$1"
  { sleep 0.2; run --mode "$1" < "$2" 2> "$work/err"; } | :
  expect "$1 into a pipe that nobody reads" 9 'write fault'
  run --mode "$1" < "$2" > /dev/full 2> "$work/err"
  expect "$1 into a full device" 9 'write fault'
  run --mode "$1" < "$2" >&- 2> "$work/err"
  expect "$1 with a closed output" 9 'write fault'
}

# fail_input MODE: standard input fails, by a directory and by no input at all. Nothing is written.
fail_input() {
  whole "$work/no-galley" --mode "$1"
  run --mode "$1" < / > "$work/out" 2> "$work/err"
  expect "$1 of a directory" 8 'read fault'
  run --mode "$1" <&- > "$work/out" 2> "$work/err"
  expect "$1 with a closed input" 8 'read fault'
}

"$program" --mode dvi < "$galley" > "$work/dvi"

for mode in report trace rate print dvi plain; do fail_output "$mode" "$galley"; done
fail_output lines "$text"
fail_output dvilist "$work/dvi"
fail_output gen /dev/null
for mode in report trace rate print lines dvi dvilist plain; do fail_input "$mode"; done

whole /dev/null --mode gen
run --mode gen <&- > "$work/out" 2> "$work/err"
expect 'gen with a closed input, which it does not read' 0 ''

whole "$work/long"
{ run < "$work/long" 2> "$work/err"; } | head -c 100 > "$work/out"
expect 'report into a pipe whose reader stops' 9 'write fault'

# If standard error fails the status stays.
whole "$work/no-galley"
run < "$work/no-galley" > "$work/out" 2>&-
expect 'no galley with a closed error' 3 ''
run < "$work/no-galley" > "$work/out" 2> /dev/full
expect 'no galley with a full device for errors' 3 ''
run --mode nothing < "$galley" > "$work/out" 2>&-
expect 'refused words with a closed error' 2 ''
whole "$galley"
run < "$galley" > "$work/out" 2>&-
expect 'report with a closed error' 0 ''
cmp -s "$work/out" "$work/whole" || failed=1
: > "$work/out"
run < "$galley" >&- 2>&-
expect 'report with closed output and error' 9 ''
run <&- >&- 2>&-
expect 'report with all ends closed' 8 ''
exit $failed
