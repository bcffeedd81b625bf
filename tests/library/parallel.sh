#!/bin/sh
# The recipe of docs/SCALE.md for GNU parallel, run on this machine: its bytes are those of smap-trace.
# The program is smap-trace on the PATH.
cd "$(dirname "$0")/../.." || exit 1
top=$(pwd)
work=$(mktemp -d) || exit 1
trap 'rm -rf "$work"' EXIT
trap 'exit 1' HUP INT TERM
cd "$work" || exit 1

mkdir -p dist/lazy || exit 1
cp "$top/tests/rows/maps/trace.map" dist/out.js.map || exit 1
cp "$top/tests/rows/maps/trace.map" dist/lazy/one.js.map || exit 1
awk 'BEGIN {
    for (i = 1; i <= 40000; i++) {
        printf "Error: %d\n    at f (http://h/m/out.js:1:2)\n", i
        printf "@http://h/m/lazy/one.js:1:%d\n@http://h/m/none.js:1:1\n", i % 9 + 1
    }
    printf "@http://h/m/out.js:1:5"
}' >crash.log

# The command of the page.
awk '/^```/ { inside = !inside; next } inside && /^parallel /' "$top/docs/SCALE.md" >recipe
[ "$(grep -c '' recipe)" -eq 1 ] || {
    echo 'docs/SCALE.md has no recipe for parallel, or several'
    exit 1
}
sed 's/--block [0-9A-Za-z-]*/--block 300k/' recipe >run.sh && grep -q "block 300k" run.sh || exit 1
sh ./run.sh || exit 1
smap-trace http://h/m/=dist/ <crash.log >wanted || exit 1
[ "$(grep -c 'http://h/m/a.js:11:3' wanted)" -eq 40000 ] || exit 1
cmp wanted translated.log
