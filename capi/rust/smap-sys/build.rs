//! Finds libsmap in the folder that SMAP_LIB_DIR names, or else where pkg-config says that it is, and has it
//! linked: the archive where SMAP_STATIC is set, or else the shared library.

use std::env;
use std::path::{Path, PathBuf};
use std::process::{exit, Command};

const LIBRARIES: [&str; 2] = ["libsmap.so", "libsmap.a"];
const NOT_FOUND: &str =
    "libsmap isn't found: name its folder in SMAP_LIB_DIR, or that of smap.pc in PKG_CONFIG_PATH";

fn fail(why: &str) -> ! {
    eprintln!("smap-sys: {why}");
    exit(1)
}

/// The folder that SMAP_LIB_DIR names. Cargo runs this program in the crate's own folder, where a relative
/// path would mean something else than where it was written.
fn named_folder(name: &Path) -> PathBuf {
    if !name.is_absolute() {
        fail(&format!("SMAP_LIB_DIR is no absolute path: {}", name.display()));
    }
    if !LIBRARIES.iter().any(|library| name.join(library).exists()) {
        fail(&format!("SMAP_LIB_DIR has neither libsmap.so nor libsmap.a: {}", name.display()));
    }
    name.to_path_buf()
}

/// A path as pkg-config writes it: with a backslash before what has a meaning for a shell.
fn without_escapes(path: &str) -> String {
    let mut out = String::new();
    let mut characters = path.chars();
    while let Some(character) = characters.next() {
        out.extend(if character == '\\' { characters.next() } else { Some(character) });
    }
    out
}

/// The folder that pkg-config knows, of this version of the library or a later one.
fn known_folder() -> Result<PathBuf, String> {
    let program = env::var_os("PKG_CONFIG").unwrap_or_else(|| "pkg-config".into());
    let (major, minor) = (env!("CARGO_PKG_VERSION_MAJOR"), env!("CARGO_PKG_VERSION_MINOR"));
    let wanted = format!("smap >= {major}.{minor}.{}", env!("CARGO_PKG_VERSION_PATCH"));
    let run = |word: &str| {
        let output = Command::new(&program).args(["--print-errors", word, &wanted]).output();
        match output {
            Err(error) => Err(format!("{}: {error}", program.to_string_lossy())),
            Ok(output) if output.status.success() => Ok(output.stdout),
            Ok(output) => Err(String::from_utf8_lossy(&output.stderr).trim().to_string()),
        }
    };
    run("--exists")?;
    let folder = run("--variable=libdir")?;
    Ok(without_escapes(String::from_utf8_lossy(&folder).trim()).into())
}

fn main() {
    for name in ["SMAP_LIB_DIR", "SMAP_STATIC", "PKG_CONFIG", "PKG_CONFIG_PATH"] {
        println!("cargo:rerun-if-env-changed={name}");
    }
    let folder = match env::var_os("SMAP_LIB_DIR") {
        Some(name) => named_folder(Path::new(&name)),
        None => known_folder().unwrap_or_else(|why| fail(&format!("{NOT_FOUND}\n{why}"))),
    };
    let kind = if env::var_os("SMAP_STATIC").is_some() { "static" } else { "dylib" };
    println!("cargo:rustc-link-search=native={}", folder.display());
    println!("cargo:rustc-link-lib={kind}=smap");
}
