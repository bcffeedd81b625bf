# shellcheck shell=sh
# What rows about `smap-maps lint` use besides, read by `.` behind work.sh.

# Makes the folder of a file.
folder_of() {
    case $1 in */*) mkdir -p "${1%/*}" ;; esac
}

# Makes a script of one call with a comment that names this map, or with none.
script() {
    folder_of "$1"
    echo 'x()' >"$1"
    if [ -n "$2" ]; then
        echo "//# sourceMappingURL=$2" >>"$1"
    fi
}

# Makes a map of that script with one mapping, and with these members besides, each behind a comma.
map() {
    folder_of "$1"
    printf '{"version":3,"sources":["a.ts"],"sourcesContent":["x()"],"mappings":"AAAA"%s}' "$2" >"$1"
}

# Makes a map of these members alone.
map_of() {
    folder_of "$1"
    printf '{"version":3,%s}' "$2" >"$1"
}

lint() {
    smap-maps lint --format gnu "$@"
}
