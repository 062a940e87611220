#!/usr/bin/env bash
# Writes two galleys as DVI, a page with floats and one with marginal notes, and says which of the tools that are installed
# take the files: dvitype, dvips, dvisvgm, dvipdfmx, dvipng. The program is that of `tools/program`.
#
# usage: bench/dvi.sh
set -eu
source "$(dirname "${BASH_SOURCE[0]}")/usage.sh"
takes 0 0 "$@"
top=$(cd "$(dirname "$0")/.." && pwd)
work=$(mktemp -d)
trap 'rm -rf "$work"' EXIT
cat > "$work/floats.galley" <<'GALLEY'
galley 1
twocolumn
box a 8pt 2pt
float F 1 double t 60pt par
float G 2 single tb 40pt par
glue 12pt plus 4pt
box b 8pt 2pt
mark m
end
GALLEY
cat > "$work/notes.galley" <<'GALLEY'
galley 1
box a 8pt 2pt
margin n 10pt 2pt 10pt 2pt par
glue 12pt
box b 8pt 2pt
foot
box f 8pt 2pt
endfoot
end
GALLEY
program=$("$top/tools/program")
cd "$work"
for name in floats notes; do
    "$program" --mode dvi < "$name.galley" > "$name.dvi"
    "$program" --mode dvilist < "$name.dvi" > "$name.list"
    echo "$name: $(wc -c < "$name.dvi") bytes, $(tail -n 1 "$name.list")"
    for tool in "dvitype $name.dvi" "dvips -q -o $name.ps $name.dvi" "dvisvgm -v3 -n $name.dvi" "dvipdfmx -q -o $name.pdf $name.dvi" "dvipng -q -o $name.png $name.dvi"; do
        command=${tool%% *}
        if ! command -v "$command" > "$work/where"; then
            echo "    $command is not installed"
        elif $tool > "$work/log" 2>&1 && ! grep -qi 'bad dvi\|error' "$work/log"; then
            echo "    $command takes it"
        else
            echo "    $command refuses it: $(tail -n 1 "$work/log")"
        fi
    done
done
