# shellcheck shell=sh
# What README and the manuals show, for tests/packages/run to try with what was packed.

# Writes the blocks of README to the folder $work/blocks.
put_blocks() {
    [ -e "$work/blocks" ] || python3 -B tests/rows/pages.py blocks README.md "$work/blocks"
}

# The line of README, "Install", that begins with these words.
install_line() {
    put_blocks >/dev/null && grep "^$1 " "$work/blocks/install-1.sh"
}

# Puts the first example of README into a folder: its lines, and what they write.
put_example() {
    put_blocks && mkdir -p "$1" && cp "$work/blocks/smap-1.sh" "$1/command" &&
        cp "$work/blocks/smap-1.out" "$1/wanted"
}

# Puts a program of capi/README.md into a folder, with the map and the log that it reads: its ending.
put_program() {
    mkdir -p "$2" && python3 -B tests/library/readme.py capi/README.md "$work/programs" &&
        cp "$work/programs/program.$1" "$work/programs/program.$1.out" "$2" &&
        cp tests/rows/maps/trace.map "$2/out.js.map" &&
        printf 'Error: x\n    at f (http://h/m/out.js:1:2)\n' >"$2/crash.log"
}

# Puts the programs of the manual of the package for Node into a folder, and a script that throws, with its map.
put_node_programs() {
    node capi/node/test/manual.js capi/node/README.md "$1" && cat >"$1/thrown.js" <<'END' &&
function f() { throw new Error('x'); }
f();
//# sourceMappingURL=thrown.js.map
END
    echo '{"version":3,"sources":["a.ts"],"mappings":"AAEM"}' >"$1/thrown.js.map"
}
