#!/bin/sh
# check.sh PROGRAM..: draws each report of examples/ and those of reports.py with the program, `./canton --quiet chart` where none is given.
# A good report has to give a picture that xmllint (of Debian's libxml2-utils) parses, a broken one its line and its status and
# nothing else. Prints what is amiss, and the number of faults. Not a part of the gate.
set -u
root=$(dirname "$(dirname "$(dirname "$(readlink -f "$0")")")")
[ $# -gt 0 ] || set -- "$root/canton" --quiet chart
work=$(mktemp -d) || exit 1
trap 'rm -rf "$work"' EXIT
"$root/docs/pictures/reports.py" "$work" || exit 1
for report in "$root"/examples/*.report; do
    name=$(basename "$report" .report)
    cp "$report" "$work/$name.report"
    echo 0 >"$work/$name.status"
    : >"$work/$name.line"
done
faults=0
count=0
for report in "$work"/*.report; do
    base=${report%.report}
    "$@" <"$report" >"$base.svg" 2>"$base.err"
    status=$?
    why=
    [ "$status" = "$(cat "$base.status")" ] || why="status $status"
    cmp -s "$base.err" "$base.line" || why="$why, standard error: $(head -c 200 "$base.err")"
    if [ "$(cat "$base.status")" = 0 ]; then
        xmllint --noout "$base.svg" 2>/dev/null || why="$why, no XML"
    elif [ -s "$base.svg" ]; then
        why="$why, bytes on standard output"
    fi
    count=$((count + 1))
    [ -z "$why" ] && continue
    echo "$(basename "$base"): $why"
    faults=$((faults + 1))
done
echo "$count reports, $faults faults"
[ "$faults" = 0 ]
