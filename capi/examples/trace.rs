//! trace URL=MAP .. <LOG: as trace.c, over the Rust wrapper.
//!
//!     rustc --edition 2024 trace.rs -lsmap
#[path = "../rust/smap.rs"]
mod smap;

use std::error::Error;
use std::io::{Read, Write};

/// The scripts of these words `URL=MAP`. A file's name begins after the last `=`.
fn scripts_of(words: impl Iterator<Item = String>) -> Result<smap::Scripts, Box<dyn Error>> {
    let mut scripts = smap::Scripts::new();
    for word in words {
        let (url, path) = word.rsplit_once('=').ok_or("usage: trace URL=MAP .. <LOG")?;
        let map = smap::Map::open(&std::fs::read(path)?, &format!("{url}.map"))
            .map_err(|fault| format!("{word}: {fault}"))?;
        scripts.add(url, &map)?;
    }
    Ok(scripts)
}

fn main() -> Result<(), Box<dyn Error>> {
    let scripts = scripts_of(std::env::args().skip(1))?;
    let mut log = Vec::new();
    std::io::stdin().read_to_end(&mut log)?;
    let (told, counts) = scripts.translate(&log, false)?;
    std::io::stdout().write_all(&told)?;
    eprintln!("{} lines, {} translated", counts.lines, counts.translated);
    Ok(())
}
