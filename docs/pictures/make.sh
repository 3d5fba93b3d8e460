#!/bin/sh
# make.sh [FOLDER]: makes the pictures and the page of each lesson of docs/EXAMPLES.md in this folder, or in another: the chart of its report, its
# requests with their views, and the page of its run. Of the transfer it makes the page of P3, too.
set -eu

here=$(dirname "$(readlink -f "$0")")
root=$(readlink -f "$here/../..")
into=${1:-$here}

for name in one-note transfer two-spends clock-skew timeout expired wrong-child lease left-out wrong-informees two-versions standing-order restarted; do
    "$root/canton" chart <"$root/examples/$name.report" >"$into/$name.chart.svg"
    "$root/canton" views <"$root/examples/$name.json" >"$into/$name.views.svg"
    "$root/canton" page <"$root/examples/$name.json" >"$into/$name.page.html"
done
"$root/canton" page --for P3 <"$root/examples/transfer.json" >"$into/transfer.P3.page.html"
