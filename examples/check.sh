#!/bin/sh
# check.sh PROGRAM..: runs a program (./canton where none is given) on each script of this folder, with the words of NAME.args or the word run,
# and compares what it writes with NAME.report, or the line with which it refuses the script with NAME.line. Then makes the scripts in which a
# sender lies again, by raw.py from other scripts of this folder, and compares them. Says each difference, and ends with status 1 where there is one.
set -u

folder=$(dirname "$(readlink -f "$0")")
[ $# -gt 0 ] || set -- "$folder/../canton"
written=$(mktemp) && said=$(mktemp) || exit 1
trap 'rm -f "$written" "$said"' EXIT
count=0
faults=0

differs() {
    echo "$1" >&2
    faults=$((faults + 1))
}

for script in "$folder"/*.json; do
    name=$(basename "$script" .json)
    base=$folder/$name
    words=run
    [ -f "$base.args" ] && words=$(cat "$base.args")
    # words stand one a line
    "$@" $words <"$script" >"$written" 2>"$said"
    status=$?
    count=$((count + 1))
    if [ -f "$base.line" ]; then
        [ "$status" -eq 3 ] || differs "$name: status $status"
        [ -s "$written" ] && differs "$name: a report"
        grep -qxF -e "$(cat "$base.line")" "$said" || differs "$name: another line"
    else
        [ "$status" -eq 0 ] || differs "$name: status $status, $(tail -n 1 "$said")"
        diff -u "$base.report" "$written" || differs "$name: another report"
    fi
done

# made NAME FROM CHANGE..: whether a script is another one with a change
made() {
    name=$1
    from=$2
    shift 2
    "$folder/raw.py" "$@" <"$folder/$from.json" >"$written" && cmp "$folder/$name.json" "$written" || differs "$name: another script"
}

made left-out transfer --drop P3
made wrong-informees transfer --informees 0.0=Bank
made two-versions wrong-child --show P1 "$folder/transfer.json"
echo "$count scripts, and three that are made of others: $faults differences"
[ "$faults" -eq 0 ]
