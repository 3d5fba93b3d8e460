#!/bin/sh
# compare.sh: makes the pictures and pages of this folder again by the program that rt ci has built, and compares them. Ends with another
# status than 0 where one differs, where one of these pages or that of locked-below.json, in which the second action of a view below another
# is rejected, shows something else at a place than oracle/page_facts.py works out, where P3's page of the transfer has a value that isn't
# opened to it, or where there is no program.
set -eu

here=$(dirname "$(readlink -f "$0")")
root=$(readlink -f "$here/../..")
if ! [ -x "$root/crates/canton_draw/out/canton_draw" ]; then
    echo "compare.sh: canton_draw isn't built; rt ci builds it" >&2
    exit 1
fi
made=$(mktemp -d)
trap 'rm -rf "$made"' EXIT
"$here/make.sh" "$made"
for picture in "$made"/*.svg "$made"/*.html; do
    cmp "$picture" "$here/$(basename "$picture")"
done
"$root/canton" page <"$here/locked-below.json" >"$made/locked-below.page.html"
"$here/facts.py" "$made"
"$here/blinded.py" "$made/transfer.page.html" "$made/transfer.P3.page.html"
