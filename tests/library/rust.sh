# shellcheck shell=sh
# What tests/library/run tests of what tools/install put below $usr for Rust: smap.rs and the crate smap-sys.

# The wrapper for Rust that was installed, beside a program that has it as a module.
rust_wrapper_installed() {
    mkdir -p "$work/module" && cp "$usr/share/smap/rust/smap.rs" "$work/module" || return 1
    cat >"$work/module/main.rs" <<'END'
mod smap;

fn main() {
    let (major, minor, patch) = smap::version();
    println!("{major}.{minor}.{patch}");
}
END
    rustc --edition 2024 -D warnings -L "$usr/lib" -l smap -o "$work/module/main" "$work/module/main.rs" &&
        [ "$(LD_LIBRARY_PATH=$usr/lib "$work/module/main")" = "$(tools/version library)" ]
}

# cargo without a network, over a copy of the crate that was installed, since it writes there: variables, and
# words for it.
cargo_here() {
    [ -d "$work/smap-sys" ] || cp -r "$usr/share/smap/rust/smap-sys" "$work/smap-sys" || return 1
    (cd "$work/smap-sys" && env CARGO_TARGET_DIR="$work/target" CARGO_NET_OFFLINE=true "$@")
}

# The crate is built, and its tests pass, the library being found in each of the ways.
crate_is_built() {
    cargo_here SMAP_LIB_DIR="$usr/lib" cargo build --offline &&
        cargo_here SMAP_LIB_DIR="$usr/lib" LD_LIBRARY_PATH="$usr/lib" cargo test --offline &&
        cargo_here LD_LIBRARY_PATH= SMAP_STATIC=1 SMAP_LIB_DIR="$usr/lib" cargo test --offline || return 1
    ! command -v pkg-config >/dev/null 2>&1 ||
        cargo_here PKG_CONFIG_PATH="$usr/lib/pkgconfig" LD_LIBRARY_PATH="$usr/lib" cargo test --offline
}

# Where it doesn't find the library, it says where it looks.
crate_wants_the_library() {
    ! cargo_here SMAP_LIB_DIR="$work/module" cargo build --offline 2>"$work/said" &&
        grep "smap-sys: SMAP_LIB_DIR has neither libsmap.so nor libsmap.a: $work/module" "$work/said" &&
        ! cargo_here SMAP_LIB_DIR=lib cargo build --offline 2>"$work/said" &&
        grep 'smap-sys: SMAP_LIB_DIR is no absolute path: lib' "$work/said" &&
        ! cargo_here PKG_CONFIG="$work/none" cargo build --offline 2>"$work/said" &&
        grep "smap-sys: libsmap isn't found: name its folder in SMAP_LIB_DIR, or" "$work/said"
}

# A crate that has it as a dependency, where it was installed.
crate_is_depended_on() {
    mkdir -p "$work/dependent/src" && cat >"$work/dependent/Cargo.toml" <<END || return 1
[package]
name = "dependent"
version = "0.1.0"
edition = "2021"

[dependencies]
smap-sys = { path = "$usr/share/smap/rust/smap-sys" }
END
    echo 'fn main() { println!("{}", unsafe { smap_sys::smap_version() }) }' >"$work/dependent/src/main.rs"
    found=$(cd "$work/dependent" &&
        SMAP_LIB_DIR=$usr/lib CARGO_TARGET_DIR=$work/target cargo run -q --offline) &&
        [ "$found" = "$(tools/version library | awk -F. '{ print $1 * 10000 + $2 * 100 + $3 }')" ]
}

test_installed_rust() {
    if has rustc 'Rust: the installed wrapper'; then
        try 'a Rust program is built with the wrapper that is installed' rust_wrapper_installed
    fi
    if has cargo 'Rust: the crate smap-sys'; then
        try 'the crate smap-sys is built with what is installed, and its tests pass' crate_is_built
        try 'the crate smap-sys says where it looks for the library' crate_wants_the_library
        try 'another crate depends on smap-sys' crate_is_depended_on
    fi
}
