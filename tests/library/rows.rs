//! The commands of the program smap that ask one map or one mappings text, or translate a bundle, over the
//! Rust wrapper.
#[path = "../../capi/rust/smap.rs"]
mod smap;

use smap::{Error, Limits, Map, TraceOptions};
use std::collections::HashMap;
use std::io::{Read, Write};

/// A name as JSON writes it.
fn quoted(name: &str) -> String {
    let mut text = String::from("\"");
    for c in name.chars() {
        match c {
            '"' => text.push_str("\\\""),
            '\\' => text.push_str("\\\\"),
            '\u{8}' => text.push_str("\\b"),
            '\u{c}' => text.push_str("\\f"),
            '\n' => text.push_str("\\n"),
            '\r' => text.push_str("\\r"),
            '\t' => text.push_str("\\t"),
            c if c < ' ' => text.push_str(&format!("\\u{:04x}", c as u32)),
            c => text.push(c),
        }
    }
    text + "\""
}

fn looked_up(map: &Map, line: u32, column: u32) -> String {
    let Some(found) = map.lookup(line, column) else {
        return "none".to_string();
    };
    let place = format!("{}:{}", found.line, found.column);
    let Some(source) = found.source else {
        return format!("{place} unmapped");
    };
    let url = map.url(source).unwrap_or("null".to_string());
    let name = map.name_at(found.line, found.column).map(|name| format!(" {}", quoted(&name)));
    format!("{place} {url}:{}:{}{}", found.source_line, found.source_column, name.unwrap_or_default())
}

fn checked(map: &Map) -> Result<String, Error> {
    let c = map.counts();
    let (length, most) = (map.canonical_mappings()?.len(), 36 * c.mappings + c.lines as usize);
    let lists = format!("{} sources, {} names", c.sources, c.names);
    let accepted = format!("{lists}, {} mappings, {} lines", c.mappings, c.lines);
    Ok(format!("accepted: {accepted}\ncanonical mappings: {length} bytes, at most {most}"))
}

/// The trace of a bundle, translated by its maps.
fn translated(mut data: &[u8], flags: &[String]) -> Result<Vec<u8>, Error> {
    let mut scripts = smap::Scripts::new();
    while !data.starts_with(b"trace\n") {
        let end = data.iter().position(|&byte| byte == b'\n').unwrap();
        let header: Vec<&str> = std::str::from_utf8(&data[..end]).unwrap().split(' ').collect();
        let length: usize = header[3].parse().unwrap();
        scripts.add(header[1], &Map::open(&data[end + 1..][..length], header[2])?)?;
        data = &data[end + 1 + length + 1..];
    }
    let is_set = |flag| flags.iter().any(|given| given == flag);
    let options = TraceOptions {
        hide: is_set("--hide-ignored"),
        anywhere: is_set("--anywhere"),
        ignore_query: is_set("--ignore-query"),
        names: is_set("--names"),
    };
    scripts.translate(&data[6..], options).map(|told| told.0)
}

/// The maps of a chain, the last first, as one.
fn composed(mut data: &[u8], flags: &[String]) -> Result<Vec<u8>, Error> {
    let mut links = Vec::new();
    while data != b"end\n" {
        let end = data.iter().position(|&byte| byte == b'\n').unwrap();
        let header: Vec<&str> = std::str::from_utf8(&data[..end]).unwrap().split(' ').collect();
        let length: usize = header[3].parse().unwrap();
        links.push((header[1], Map::open(&data[end + 1..][..length], header[2])?));
        data = &data[end + 1 + length + 1..];
    }
    let mut later: HashMap<String, Map> = HashMap::new();
    let mut last = None;
    for (url, link) in links.iter().rev() {
        let urls = (0..link.counts().sources).map(|i| (i, link.url(i).unwrap_or_default()));
        let inner: Vec<_> = urls.filter_map(|(i, source)| Some((i, later.get(&source)?))).collect();
        let map = link.compose(&inner, Limits::default())?;
        last = Some(map.share()?);
        later.insert(url.to_string(), map);
    }
    let is_set = |flag| flags.iter().any(|given| given == flag);
    let mut map = last.unwrap();
    if is_set("--thin") {
        map = map.thinned()?;
    }
    if is_set("--used") {
        map = map.used()?;
    }
    if is_set("--relative") { map.canonical_relative() } else { map.canonical() }
}

fn answer(words: &[String], data: &[u8]) -> Result<Vec<u8>, Error> {
    if words[0] == "respell" {
        let mut text = smap::respell(data.strip_suffix(b"\n").unwrap_or(data))?;
        text.push(b'\n');
        return Ok(text);
    }
    if words[0] == "compose" {
        return composed(data, &words[1..]);
    }
    if words[0] == "translate" {
        return translated(data, &words[1..]);
    }
    let relative = words[1] == "--relative";
    let map = Map::open(data, &words[if relative { 2 } else { 1 }])?;
    match words[0].as_str() {
        "tidy" if relative => map.canonical_relative(),
        "tidy" => map.canonical(),
        "flatten" => map.flatten(),
        "check" => Ok((checked(&map)? + "\n").into_bytes()),
        _ => Ok((looked_up(&map, words[2].parse().unwrap(), words[3].parse().unwrap()) + "\n").into_bytes()),
    }
}

fn main() {
    let words: Vec<String> = std::env::args().skip(1).collect();
    let mut data = Vec::new();
    std::io::stdin().read_to_end(&mut data).unwrap();
    let (text, status) = match answer(&words, &data) {
        Ok(text) => (text, 0),
        Err(fault) => (format!("refused: {fault}\n").into_bytes(), 1),
    };
    std::io::stdout().write_all(&text).unwrap();
    std::process::exit(status);
}
