# shellcheck shell=sh
# What rows about scripts use besides, read by `.` in the folder tests/rows: a folder of their own, $work,
# that goes at the end, the scripts on the PATH, and functions that fill the folder.

rows=$PWD
work=$(mktemp -d) || exit 1
trap 'rm -rf "$work"' EXIT
trap 'exit 1' HUP INT TERM
umask 022
chmod 755 "$work"
PATH=$rows/../../tools:$PATH
cd "$work" || exit 1

# Makes the folder dist of so many maps, each with a source of its own, and a log of a frame in each.
chunks() {
    mkdir dist
    n=1
    while [ "$n" -le "$1" ]; do
        printf '{"version":3,"sources":["src/%s.js"],"mappings":"AAUE,IAEA"}' "$n" >"dist/chunk$n.js.map"
        printf '    at f (http://h/m/chunk%s.js:1:2)\n' "$n" >>crash.log
        n=$((n + 1))
    done
}

# Copies the map of a script to these places, and makes their folders.
maps_at() {
    for place in "$@"; do
        case $place in */*) mkdir -p -- "${place%/*}" ;; esac
        cp "$rows/maps/trace.map" "./$place"
    done
}

# Writes what `smap translate --anywhere` makes of standard input with the map of http://h/m/out.js; and where
# `smap-trace` with these arguments makes something else of it, as a file or as a pipe, that.
as_translated() {
    cat >log
    {
        echo 'map http://h/m/out.js http://h/m/out.js.map 55'
        cat "$rows/maps/trace.map"
        printf '\ntrace\n'
        cat log
    } | smap translate --anywhere >translated
    smap-trace "$@" log >traced 2>/dev/null
    cmp traced translated || cat traced
    tail -n +1 log | smap-trace "$@" >traced 2>/dev/null
    cmp traced translated || cat traced
    cat translated
}

# Runs a command with the rights of nobody, where it would have those of root. The programs are copied
# to where nobody can read them.
as_nobody() {
    if [ "$(id -u)" -ne 0 ]; then
        "$@"
        return
    fi
    mkdir -p programs
    cp "$SMAP" "$rows"/../../crates/smap_view_run/smap-view.html programs
    ln -sf smap programs/smap-trace
    ln -sf smap programs/smap-maps
    ln -sf smap programs/smap-view
    chmod -R a+rX programs
    if command -v setpriv >/dev/null; then
        SMAP=$work/programs/smap PATH=$work/programs:$PATH \
            setpriv --reuid 65534 --regid 65534 --clear-groups "$@"
    else
        su -s /bin/sh -c "SMAP=$work/programs/smap PATH=$work/programs:\$PATH $*" nobody
    fi
}
