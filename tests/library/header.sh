# shellcheck shell=sh
# What tests/library/run tests of the header: against the library's symbols and their versions, against the
# definitions, and with what makes bindings out of it.

header_alone() {
    echo '#include "smap.h"' >"$work/header.c"
    "$@" -Wall -Wextra -pedantic -Werror -I"$lib" -fsyntax-only "$work/header.c"
}

# The header as a compiler sees it, with these words for it.
preprocessed() {
    echo '#include "smap.h"' | cc -E -P -I"$lib" "$@" -
}

# The functions that the header declares for bindings: those that the library has under their own names.
declared() {
    preprocessed -DSMAP_NO_INLINE | sed -n 's/^[a-z].* \(smap_[a-z0-9_]*\)(.*/\1/p' | sort
}

# The second names of those that are inline functions in C.
declared_strict() {
    preprocessed | sed -n 's/^\(uint32_t\|size_t\) \(smap_[a-z0-9_]*_strict\)(.*/\2/p' | sort
}

# The functions that the header declares are those of the archive, and those of the shared object.
symbols_agree() {
    { declared && declared_strict; } | sort >"$work/declared"
    nm -g --defined-only "$lib/libsmap.a" | sed -n 's/^[0-9a-f]* . //p' | sort >"$work/archive"
    nm -D --defined-only "$lib/libsmap.so" | sed -n 's/^[0-9a-f]* [^A] \(.*\)@@.*/\1/p' | sort >"$work/shared"
    [ -s "$work/declared" ] && diff "$work/declared" "$work/archive" && diff "$work/declared" "$work/shared"
}

# Each inline function calls the library's own function under its second name, which is at the same place.
strict_are_the_same() {
    declared_strict >"$work/strict"
    sed -n 's/^SMAP_INLINE [a-z0-9_]* \(smap_[a-z0-9_]*\)(.*/\1_strict/p' "$lib/smap.h" | sort |
        diff "$work/strict" - || return 1
    nm -g --defined-only "$lib/libsmap.a" | sed 's/_strict$//' | sort | uniq -d >"$work/twice"
    sed 's/.* \(.*\)/\1_strict/' "$work/twice" | sort | diff "$work/strict" - && [ -s "$work/strict" ]
}

# No name of the library is a macro: what stands for it would be another function in each language.
renames_nothing() {
    preprocessed -dM >"$work/macros" && grep -q '^#define SMAP_VERSION ' "$work/macros" &&
        ! grep '^#define smap_' "$work/macros"
}

# `NAME VERSION` for each name of the shared object, and of the list of versions; and the names of version
# 0.1.0, by the header of then.
versions_agree() {
    objdump -T "$lib/libsmap.so.0" | sed -n 's/.* \(SMAP_[0-9.]*\) *\(smap_[a-z0-9_]*\)$/\2 \1/p' |
        sort >"$work/had"
    awk '/^SMAP_/ { version = $1 } /^    smap_/ { sub(/;/, ""); print $1, version }' \
        capi/libsmap.versions | sort | diff "$work/had" - || return 1
    declared_then | sed 's/$/ SMAP_0.1/' >"$work/then"
    grep ' SMAP_0\.1$' "$work/had" | diff "$work/then" - && [ -s "$work/then" ]
}

# The functions of the header of version 0.1.0.
declared_then() {
    sed -n 's/^[a-z][a-z0-9_]* \(smap_[a-z_]*\)(.*/\1/p' "$tests/0.1.0/smap.h" | sort
}

# `NAME 7` for each number of the header that begins so; for each of the definitions, but the kinds of faults.
numbered() {
    sed -n "s/^    $1\([A-Z0-9_]*\) = \([0-9]*\).*/\1 \2/p" "$lib/smap.h"
}

defined() {
    sed -n 's/^\([A-Z0-9_]*\) = \([0-9]*\)$/\1 \2/p' "crates/$1.antt"
}

# The same for the kinds of faults, as the definitions number and name them: `NOT_OBJECT 3` for NotObject.
named() {
    sed -n 's/^    if n == \([0-9]*\) then codes "\(.*\)" else.*/\2 \1/p' \
        crates/smap_record/specs/Kinds.antt | sed 's/\([a-z]\)\([A-Z]\)/\1_\2/g' | tr 'a-z' 'A-Z'
}

numbers_agree() {
    numbered SMAP_ | grep -v '^FAULT_' >"$work/codes"
    numbered SMAP_FAULT_ >"$work/kinds"
    { defined smap_c_answers/specs/Codes && defined smap_c/specs/Traces &&
        defined smap_c_answers/specs/FileKinds && defined smap_c_answers/specs/Named; } | diff "$work/codes" - &&
        named | diff "$work/kinds" - &&
        [ -s "$work/codes" ] && [ -s "$work/kinds" ]
}

# The page of errors has each kind of the header, in its order.
kinds_are_explained() {
    sed -n '/^## Errors of a map/,/^## `/s/^| \([A-Z][^|]*\) | .*/\1/p' docs/ERRORS.md |
        sed 's/^Number(W, \(.*\))/\1/; s/([A-Z])//; s/, /\n/g' | tr 'A-Z' 'a-z' >"$work/explained"
    numbered SMAP_FAULT_ | sed 's/ .*//; s/_//g' | tr 'A-Z' 'a-z' | diff "$work/explained" - &&
        [ -s "$work/explained" ]
}

# Each name of the library that a page has is one of the header, or that of a crate.
pages_name_what_is_declared() {
    { preprocessed | grep -o '\<smap_[a-z0-9_]*' && ls crates && echo smap_; } | sort -u >"$work/known"
    grep -o -h '`[^`]*`' capi/README.md docs/ARCHITECTURE.md docs/CLAIMS.md docs/DECISIONS.md docs/LINKING.md |
        grep -o '\<smap_[a-z0-9_]*' | sort -u >"$work/named"
    [ -s "$work/named" ] && ! comm -23 "$work/named" "$work/known" | grep .
}

soname() {
    objdump -p "$lib/libsmap.so" | grep -q 'SONAME *libsmap.so.0'
}

# ---- what makes bindings out of the header

# bindgen declares each function that the library has, by its name.
bindgen_sees() {
    bindgen --allowlist-function 'smap_.*' --allowlist-type 'smap_.*' --allowlist-var 'SMAP_.*' \
        --no-prepend-enum-name "$lib/smap.h" -- -DSMAP_NO_INLINE >"$work/bindings.rs" &&
        sed -n 's/^ *pub fn \(smap_[a-z0-9_]*\).*/\1/p' "$work/bindings.rs" | sort >"$work/bound" &&
        declared | diff "$work/bound" - && [ -s "$work/bound" ]
}

# What a file of Rust declares: structs with their fields, functions, numbers, each of these in its order.
declared_in_rust() {
    tr -s '\n ' ' ' <"$1" >"$work/one-line"
    for kind in '(struct [a-z_]+|[a-z_]+: [^,]+,)' 'fn [^;]+;' 'const [A-Z0-9_]+: [a-z0-9_]+ = [0-9]+;'; do
        sed 's/( /(/g; s/, )/)/g' "$work/one-line" | grep -o -E "pub $kind"
    done | sed 's/::std::os::raw:://g; s/usize\]/]/; s/\<size_t\>/usize/g; s/_bindgen_ty_[0-9]*/u32/'
}

# The crate smap-sys declares what bindgen reads in the header.
crate_declares() {
    declared_in_rust capi/rust/smap-sys/src/bindings.rs >"$work/of-crate"
    declared_in_rust "$work/bindings.rs" | grep -v '^pub const SMAP_VERSION: ' | diff "$work/of-crate" - &&
        [ "$(grep -c '^pub fn' "$work/of-crate")" -eq "$(declared | wc -l)" ]
}

test_header() {
    try 'the header is C99' header_alone cc -std=c99
    has c++ 'the header as C++11' && try 'the header is C++11' header_alone c++ -std=c++11 -x c++
    try 'no macro of the header renames a function' renames_nothing
    if has nm 'the symbols of the library'; then
        try 'the header declares what the library defines' symbols_agree
        try 'inline functions call those of the library' strict_are_the_same
    fi
    try 'the header has the numbers of the definitions' numbers_agree
    try 'docs/ERRORS.md explains each kind of error' kinds_are_explained
    try 'the pages name what the header declares' pages_name_what_is_declared
    if has objdump 'the name of the shared object, the versions of its names'; then
        try 'the shared object has its name' soname
        try 'the names of the shared object have their versions' versions_agree
    fi
}

test_bindings() {
    if has bindgen 'what bindgen reads in the header' &&
        try 'bindgen sees each function of the header by its name' bindgen_sees; then
        try 'the crate smap-sys declares what bindgen reads in the header' crate_declares
    fi
    if find_python pycparser 'what is written out of the header'; then
        try 'what is written out of the header is what it declares' "$python" -B tools/write-bindings --check
        try 'tools/write-bindings says what differs' "$python" -B "$tests/bindings.py"
    fi
    if find_python 'cffi, pycparser' 'what pycparser and cffi read in the header'; then
        try 'pycparser and cffi see each function of the header' "$python" -B "$tests/header.py" "$lib"
    fi
}
