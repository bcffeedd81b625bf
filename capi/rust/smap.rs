//! Source maps, safely over the C library libsmap: one file to put into a crate as a module.
//!
//! ```text
//! let map = smap::Map::open(&bytes, "http://h/m/out.js.map")?;
//! if let Some(found) = map.lookup(0, 7) {
//!     println!("{:?} {}:{}", found.source.and_then(|s| map.url(s)), found.source_line, found.source_column);
//! }
//! ```
//!
//! Link it by `-lsmap`. Lines and columns count from 0, but in traces from 1. A `Map` may be sent to another
//! thread, and `share` makes a second owner of the same map for one; it isn't `Sync`.
#![allow(dead_code)]

use raw::*;
use std::cell::UnsafeCell;
use std::fmt;

/// What bounds a map; 0 stands for 16,777,216.
pub use raw::Limits;

/// How many lines a trace has, and how many of them were translated and dropped.
pub use raw::TraceCounts;

/// How much a map holds: distinct sources, sources and names as listed, mappings, and generated lines.
pub use raw::Counts;

/// The first fault of a map or of a mappings text: its kind (one of smap.h's SMAP_FAULT_..), the path of its
/// section, the line and the segment, the number that the kind carries, and its words.
#[derive(Clone, Debug)]
pub struct Fault {
    pub kind: u32,
    pub section: Vec<usize>,
    pub place: Option<(u32, u32)>,
    pub number: usize,
    pub words: String,
}

impl Fault {
    /// What docs/ERRORS.md calls its kind, such as "SourceUrl".
    pub fn name(&self) -> String {
        named(|out, room| unsafe { smap_fault_name(self.kind, out, room) })
    }
}

/// Why there is no answer.
#[derive(Clone, Debug)]
pub enum Error {
    Refused(Fault),
    NotUrl,
    Limits,
    Memory,
    /// The URLs of the sources take more bytes than they may.
    UrlBytes,
    /// A map that is made has more sources or names than it may.
    TooMany,
}

impl Error {
    /// The library's code for it.
    pub fn code(&self) -> u32 {
        match self {
            Error::Refused(_) => REFUSED,
            Error::NotUrl => NOT_URL,
            Error::Limits => LIMITS,
            Error::Memory => MEMORY,
            Error::UrlBytes => URL_BYTES,
            Error::TooMany => TOO_MANY,
        }
    }
}

impl fmt::Display for Error {
    fn fmt(&self, f: &mut fmt::Formatter<'_>) -> fmt::Result {
        if let Error::Refused(fault) = self {
            return f.write_str(&fault.words);
        }
        f.write_str(&named(|out, room| unsafe { smap_code_name(self.code(), out, room) }))
    }
}

impl std::error::Error for Error {}

/// The name of a code or a kind, which a call copies into a buffer.
fn named(call: impl FnOnce(*mut u8, usize) -> usize) -> String {
    let mut name = [0; 64];
    let len = call(name.as_mut_ptr(), name.len());
    String::from_utf8_lossy(&name[..len.min(64)]).into_owned()
}

fn error(code: u32, fault: &raw::Fault) -> Error {
    match code {
        REFUSED => Error::Refused(Fault {
            kind: fault.kind,
            section: fault.section[..fault.depth].to_vec(),
            place: fault.has_place.then_some((fault.line, fault.segment)),
            number: fault.number,
            words: String::from_utf8_lossy(&fault.text[..fault.text_len.min(264)]).into_owned(),
        }),
        NOT_URL => Error::NotUrl,
        LIMITS => Error::Limits,
        URL_BYTES => Error::UrlBytes,
        TOO_MANY => Error::TooMany,
        _ => Error::Memory,
    }
}

/// The string that a call copies into a buffer, whose full length it returns; none if its code isn't OK.
fn copied(mut call: impl FnMut(*mut u8, usize, *mut usize) -> u32) -> Option<Vec<u8>> {
    let (mut text, mut len) = (vec![0; 256], 0);
    loop {
        if call(text.as_mut_ptr(), text.len(), &mut len) != OK {
            return None;
        }
        if len <= text.len() {
            text.truncate(len);
            return Some(text);
        }
        text.resize(len, 0);
    }
}

/// The same of a text, which is UTF-8.
fn text_of(call: impl FnMut(*mut u8, usize, *mut usize) -> u32) -> Option<String> {
    copied(call).map(|text| String::from_utf8_lossy(&text).into_owned())
}

/// Takes the bytes out that a call puts into a handle.
fn written(call: impl FnOnce(*mut raw::Bytes) -> u32) -> Result<Vec<u8>, u32> {
    let mut out = raw::Bytes::default();
    let code = call(&mut out);
    if code != OK {
        return Err(code);
    }
    let mut none = 0;
    let mut text = vec![0; unsafe { smap_bytes_copy(&mut out, 0, &mut none, 0) }];
    unsafe {
        smap_bytes_copy(&mut out, 0, text.as_mut_ptr(), text.len());
        smap_bytes_free(&mut out);
    }
    Ok(text)
}

/// The library's version: major, minor and patch.
pub fn version() -> (u32, u32, u32) {
    let version = unsafe { smap_version() };
    (version / 10000, version / 100 % 100, version % 100)
}

/// A mappings text, sorted and as short as possible.
pub fn respell(text: &[u8]) -> Result<Vec<u8>, Error> {
    let mut fault = raw::Fault::default();
    written(|out| unsafe { smap_respell(text.as_ptr(), text.len(), out, &mut fault) })
        .map_err(|code| error(code, &fault))
}

/// Why mappings have no mappings text.
#[derive(Clone, Copy, Debug, PartialEq, Eq)]
pub enum SpellError {
    /// The index of the first mapping that has numbers out of range.
    Wrong(usize),
    Memory,
}

impl fmt::Display for SpellError {
    fn fmt(&self, f: &mut fmt::Formatter<'_>) -> fmt::Result {
        match self {
            SpellError::Wrong(i) => write!(f, "mapping {i}: number out of range"),
            SpellError::Memory => Error::Memory.fmt(f),
        }
    }
}

impl std::error::Error for SpellError {}

/// The mappings text of mappings in any order, sorted and as short as possible; those at one position keep
/// their order. A mapping's numbers, each from 0, are the generated line and column, the source, its line and
/// column, and the name. `u32::MAX` stands for none: the last four in a mapping without an original, the last
/// one in one without a name. The line is below 16,777,216, and the others are at most 2,147,483,647.
pub fn spell(mappings: &[[u32; 6]]) -> Result<Vec<u8>, SpellError> {
    let mut wrong = 0;
    let numbers = mappings.as_ptr() as *const u32;
    match written(|out| unsafe { smap_spell(numbers, mappings.len(), out, &mut wrong) }) {
        Ok(text) => Ok(text),
        Err(RANGE) => Err(SpellError::Wrong(wrong)),
        Err(_) => Err(SpellError::Memory),
    }
}

/// Why a URL or a path gives nothing.
#[derive(Clone, Copy, Debug, PartialEq, Eq)]
pub enum LinkError {
    /// It is no such URL: docs/LINKING.md says which is.
    NotUrl,
    NotBase64,
    NotUtf8,
    Memory,
}

/// What a call puts into a handle, or none if there is nothing.
fn given(call: impl FnOnce(*mut raw::Bytes) -> u32) -> Result<Option<Vec<u8>>, LinkError> {
    match written(call) {
        Ok(bytes) => Ok(Some(bytes)),
        Err(NONE) => Ok(None),
        Err(NOT_URL) => Err(LinkError::NotUrl),
        Err(NOT_BASE64) => Err(LinkError::NotBase64),
        Err(NOT_UTF8) => Err(LinkError::NotUtf8),
        Err(_) => Err(LinkError::Memory),
    }
}

/// The URL of its map that a script, or with `css` a style sheet, names in its last comment.
pub fn script_link(text: &[u8], css: bool) -> Option<Vec<u8>> {
    copied(|at, n, len| unsafe { smap_script_link(text.as_ptr(), text.len(), css, at, n, len) })
}

/// That URL resolved against the script's own.
pub fn resolve(script: &[u8], url: &[u8]) -> Result<Vec<u8>, LinkError> {
    let call = |out| unsafe {
        smap_resolve(script.as_ptr(), script.len(), url.as_ptr(), url.len(), out)
    };
    Ok(given(call)?.unwrap_or_default())
}

/// The bytes that a data: URL holds; none of another URL.
pub fn data_url(url: &[u8]) -> Result<Option<Vec<u8>>, LinkError> {
    given(|out| unsafe { smap_data_url(url.as_ptr(), url.len(), out) })
}

/// The file: URL of an absolute path; none of a relative one.
pub fn file_url(path: &[u8]) -> Result<Option<Vec<u8>>, LinkError> {
    given(|out| unsafe { smap_file_url(path.as_ptr(), path.len(), out) })
}

/// The path of a file: URL; none of another URL.
pub fn file_path(url: &[u8]) -> Result<Option<Vec<u8>>, LinkError> {
    given(|out| unsafe { smap_file_path(url.as_ptr(), url.len(), out) })
}

/// The URL of the script with this name below a folder.
pub fn script_url(folder: &[u8], name: &[u8]) -> Result<Vec<u8>, LinkError> {
    let call = |out| unsafe {
        smap_script_url(folder.as_ptr(), folder.len(), name.as_ptr(), name.len(), out)
    };
    Ok(given(call)?.unwrap_or_default())
}

/// The name of the script with this URL below a folder, if it is one of those.
pub fn script_name(folder: &[u8], url: &[u8]) -> Result<Option<Vec<u8>>, LinkError> {
    given(|out| unsafe {
        smap_script_name(folder.as_ptr(), folder.len(), url.as_ptr(), url.len(), out)
    })
}

/// What a script names for its map.
#[derive(Clone, Debug, PartialEq, Eq)]
pub enum Named {
    /// Nothing, in a text of white space and comments: what is before it would say.
    Unsaid,
    Nothing,
    /// The map itself, in a data: URL.
    Inline(Vec<u8>),
    /// A file below the script's folder, by its name there.
    File(Vec<u8>),
    /// A data: URL that can't be decoded.
    Garbled,
    /// An empty URL, or one of more than 65,536 bytes.
    NoName,
    /// What makes no URL with the script's.
    NotUrl,
    /// A URL of no file below the folder.
    Leaves,
}

/// What the script, or the style sheet, with this name below a folder names for its map. The folder has a URL
/// or a path that ends in a slash; the text is the script's, or its last lines.
pub fn named_map(folder: &[u8], name: &[u8], text: &[u8]) -> Result<Named, LinkError> {
    let (at, folder_len, name_at, name_len) = (folder.as_ptr(), folder.len(), name.as_ptr(), name.len());
    let mut kind = NAMED_NOTHING;
    let found = given(|out| unsafe {
        smap_named_map(at, folder_len, name_at, name_len, text.as_ptr(), text.len(), out, &mut kind)
    })?;
    Ok(match (kind, found) {
        (NAMED_UNSAID, _) => Named::Unsaid,
        (NAMED_INLINE, Some(map)) => Named::Inline(map),
        (NAMED_FILE, Some(name)) => Named::File(name),
        (NAMED_GARBLED, _) => Named::Garbled,
        (NAMED_NO_NAME, _) => Named::NoName,
        (NAMED_NOT_URL, _) => Named::NotUrl,
        (NAMED_LEAVES, _) => Named::Leaves,
        _ => Named::Nothing,
    })
}

/// A map that a script may have.
#[derive(Clone, Debug, PartialEq, Eq)]
pub enum Candidate {
    /// The map itself.
    Map(Vec<u8>),
    /// A file below the script's folder, by its name there.
    File(Vec<u8>),
}

/// The next of the maps that the script, or the style sheet, with this name below a folder may have, after so
/// many that can't be had: first the one that it names, then the file next to it. The first that can be had is
/// its map. The folder, the name and the text are those of `named_map`.
pub fn script_map(
    folder: &[u8],
    name: &[u8],
    text: &[u8],
    tried: usize,
) -> Result<Option<Candidate>, LinkError> {
    let (at, folder_len, name_at, name_len) = (folder.as_ptr(), folder.len(), name.as_ptr(), name.len());
    let (from, len, mut kind) = (text.as_ptr(), text.len(), NAMED_NOTHING);
    let found = given(|out| unsafe {
        smap_script_map(at, folder_len, name_at, name_len, from, len, tried, out, &mut kind)
    })?;
    Ok(found.map(|map| match (kind, tried) {
        (NAMED_INLINE, 0) => Candidate::Map(map),
        _ => Candidate::File(map),
    }))
}

/// What a file is by the end of its name.
#[derive(Clone, Copy, Debug, PartialEq, Eq)]
pub enum FileKind {
    Other,
    Script,
    StyleSheet,
    Map,
}

/// What a file with this name is.
pub fn file_kind(name: &[u8]) -> FileKind {
    match unsafe { smap_file_kind(name.as_ptr(), name.len()) } {
        FILE_SCRIPT => FileKind::Script,
        FILE_STYLE_SHEET => FileKind::StyleSheet,
        FILE_MAP => FileKind::Map,
        _ => FileKind::Other,
    }
}

/// What all names of a script have in common, or `with_query` those that have the same query too.
pub fn normal_form(name: &[u8], with_query: bool) -> Result<Vec<u8>, LinkError> {
    let call = |out| unsafe { smap_normal_form(name.as_ptr(), name.len(), with_query, out) };
    Ok(given(call)?.unwrap_or_default())
}

/// Whether two names are alike.
pub fn alike(one: &[u8], other: &[u8]) -> Result<bool, LinkError> {
    let mut alike = false;
    match unsafe {
        smap_alike(one.as_ptr(), one.len(), other.as_ptr(), other.len(), &mut alike)
    } {
        OK => Ok(alike),
        _ => Err(LinkError::Memory),
    }
}

/// A generated position and where it comes from: `source` is none where it comes from nowhere.
#[derive(Clone, Copy, Debug, PartialEq, Eq)]
pub struct Mapping {
    pub line: u32,
    pub column: u32,
    pub source: Option<usize>,
    pub source_line: u32,
    pub source_column: u32,
    pub has_name: bool,
    pub is_ignored: bool,
}

impl From<raw::Mapping> for Mapping {
    fn from(m: raw::Mapping) -> Mapping {
        Mapping {
            line: m.line,
            column: m.column,
            source: m.has_source.then_some(m.source),
            source_line: m.source_line,
            source_column: m.source_column,
            has_name: m.has_name,
            is_ignored: m.is_ignored,
        }
    }
}

/// A mapping by places in the lists of the map's text: `source` is none where it comes from nowhere.
#[derive(Clone, Copy, Debug, PartialEq, Eq)]
pub struct ListedMapping {
    pub line: u32,
    pub column: u32,
    pub source: Option<u32>,
    pub source_line: u32,
    pub source_column: u32,
    pub name: Option<u32>,
}

/// All mappings of a map, in order of line and column.
pub struct Mappings<'map> {
    map: &'map Map,
    next: usize,
}

impl Iterator for Mappings<'_> {
    type Item = Mapping;

    fn next(&mut self) -> Option<Mapping> {
        let found = self.map.mapping(self.next)?;
        self.next += 1;
        Some(found)
    }
}

/// The frame that a line of a trace is: the script's URL, and a position, which counts from 1.
#[derive(Clone, Copy, Debug, PartialEq, Eq)]
pub struct Frame<'line> {
    pub url: &'line [u8],
    pub line: u32,
    pub column: u32,
}

/// The frame that a line is, taken without its line feed, if it is one.
pub fn frame(line: &[u8]) -> Option<Frame<'_>> {
    let mut f = raw::FrameParts::default();
    if unsafe { smap_frame(line.as_ptr(), line.len(), &mut f) } != OK {
        return None;
    }
    Some(Frame { url: &line[f.url_from..f.url_from + f.url_len], line: f.line, column: f.column })
}

/// What became of a line of a trace.
#[derive(Clone, Debug, PartialEq, Eq)]
pub enum Line {
    Kept(Vec<u8>),
    Translated(Vec<u8>),
    Dropped,
}

/// How a trace is translated. A `bool` may stand for it, which says whether to hide.
///
/// ```text
/// let options = smap::TraceOptions { anywhere: true, ..Default::default() };
/// let (text, counts) = scripts.translate(log, options)?;
/// ```
#[derive(Clone, Copy, Debug, Default, PartialEq, Eq)]
pub struct TraceOptions {
    /// Lines that are frames in ignored sources are dropped.
    pub hide: bool,
    /// Positions are found anywhere in a line, not only in lines that are frames.
    pub anywhere: bool,
    /// The URL of a script may be followed by a query and a fragment.
    pub ignore_query: bool,
    /// Frames get the names of functions, where these are sure.
    pub names: bool,
}

impl From<bool> for TraceOptions {
    fn from(hide: bool) -> TraceOptions {
        TraceOptions { hide, ..TraceOptions::default() }
    }
}

impl TraceOptions {
    /// The bits of smap.h for them.
    fn how(self) -> u8 {
        let bits = [
            (self.hide, HIDE_IGNORED),
            (self.anywhere, ANYWHERE),
            (self.ignore_query, IGNORE_QUERY),
            (self.names, NAMES),
        ];
        bits.iter().filter(|(is_set, _)| *is_set).map(|&(_, bit)| bit as u8).sum()
    }
}

/// A source map. Its handle is in a cell, since each call has its handle to itself while it runs.
#[repr(transparent)]
pub struct Map(UnsafeCell<raw::Map>);

// The library proves that what a handle owns may be read and freed in any thread.
unsafe impl Send for Map {}

impl Drop for Map {
    fn drop(&mut self) {
        unsafe { smap_close(self.0.get()) }
    }
}

impl Map {
    fn closed() -> Map {
        Map(UnsafeCell::default())
    }

    /// Reads a map, whose URL is `base`, under the usual limits.
    pub fn open(text: &[u8], base: &str) -> Result<Map, Error> {
        Map::open_within(text, base, Limits::default())
    }

    /// The same under these limits.
    pub fn open_within(text: &[u8], base: &str, limits: Limits) -> Result<Map, Error> {
        let (map, mut fault) = (Map::closed(), raw::Fault::default());
        let code = unsafe {
            smap_open(map.0.get(), text.as_ptr(), text.len(), base.as_ptr(), base.len(), &limits, &mut fault)
        };
        if code == OK { Ok(map) } else { Err(error(code, &fault)) }
    }

    /// The same, if the URLs of its sources take at most `url_bytes` bytes together. Each source counts as
    /// often as it is listed, with the bytes of its URL, or of the text that this is made from if they are
    /// more.
    pub fn open_within_url_bytes(
        text: &[u8], base: &str, limits: Limits, url_bytes: usize,
    ) -> Result<Map, Error> {
        let (map, mut fault) = (Map::closed(), raw::Fault::default());
        let code = unsafe {
            smap_open_within(
                map.0.get(), text.as_ptr(), text.len(), base.as_ptr(), base.len(), &limits, url_bytes,
                &mut fault,
            )
        };
        if code == OK { Ok(map) } else { Err(error(code, &fault)) }
    }

    /// A second owner of the same map, as for another thread.
    pub fn share(&self) -> Result<Map, Error> {
        let other = Map::closed();
        let code = unsafe { smap_share(self.0.get(), other.0.get()) };
        if code == OK { Ok(other) } else { Err(Error::Memory) }
    }

    /// Whether the two maps say the same, however their texts spell it.
    pub fn same(&self, other: &Map) -> bool {
        let mut out = true;
        if !std::ptr::eq(self, other) {
            unsafe { smap_same(self.0.get(), other.0.get(), &mut out) };
        }
        out
    }

    /// The map that a call makes of this one.
    fn made(&self, call: impl FnOnce(*mut raw::Map, *mut raw::Map) -> u32) -> Result<Map, Error> {
        let made = Map::closed();
        let code = call(self.0.get(), made.0.get());
        if code == OK { Ok(made) } else { Err(error(code, &raw::Fault::default())) }
    }

    /// One map out of this one and maps of its sources, where these were generated themselves: pairs of a
    /// source's number and its map. Each mapping stays, with the original that a lookup in its source's map
    /// has. Of the limits `items` counts.
    ///
    /// # Panics
    ///
    /// A number isn't that of a source.
    pub fn compose(&self, maps: &[(usize, &Map)], limits: Limits) -> Result<Map, Error> {
        let mut leads = vec![usize::MAX; self.counts().sources];
        let shares: Vec<Map> = maps.iter().map(|(_, map)| map.share()).collect::<Result<_, _>>()?;
        for (i, (source, _)) in maps.iter().enumerate() {
            leads[*source] = i;
        }
        // an owner is its handle, so these lie as an array of handles does
        let inner = shares.as_ptr() as *mut raw::Map;
        self.made(|map, out| unsafe {
            smap_compose(map, inner, shares.len(), leads.as_ptr(), leads.len(), &limits, out)
        })
    }

    /// The map without the mappings that change no position's original.
    pub fn thinned(&self) -> Result<Map, Error> {
        self.made(|map, out| unsafe { smap_thin(map, out) })
    }

    /// The map without the sources that no mapping has.
    pub fn used(&self) -> Result<Map, Error> {
        self.made(|map, out| unsafe { smap_only_used(map, out) })
    }

    pub fn counts(&self) -> Counts {
        let mut counts = Counts::default();
        unsafe { smap_count(self.0.get(), &mut counts) };
        counts
    }

    /// The mapping that a generated position falls to.
    pub fn lookup(&self, line: u32, column: u32) -> Option<Mapping> {
        let mut m = raw::Mapping::default();
        let code = unsafe { smap_lookup(self.0.get(), line, column, &mut m) };
        (code == OK).then(|| m.into())
    }

    /// The number of that mapping, for `mapping` and `listed_mapping`.
    pub fn index_at(&self, line: u32, column: u32) -> Option<usize> {
        let mut out = 0;
        let code = unsafe { smap_find(self.0.get(), line, column, &mut out) };
        (code == OK).then_some(out)
    }

    /// The i-th mapping, in order of line and column.
    pub fn mapping(&self, i: usize) -> Option<Mapping> {
        let mut m = raw::Mapping::default();
        let code = unsafe { smap_token(self.0.get(), i, &mut m) };
        (code == OK).then(|| m.into())
    }

    /// All mappings, in order of line and column.
    pub fn mappings(&self) -> Mappings<'_> {
        Mappings { map: self, next: 0 }
    }

    /// The i-th mapping by places in the lists, in order of line and column.
    pub fn listed_mapping(&self, i: usize) -> Option<ListedMapping> {
        let mut m = raw::ListedMapping::default();
        if unsafe { smap_listed_token(self.0.get(), i, &mut m) } != OK {
            return None;
        }
        Some(ListedMapping {
            line: m.line,
            column: m.column,
            source: m.has_source.then_some(m.source),
            source_line: m.source_line,
            source_column: m.source_column,
            name: m.has_name.then_some(m.name),
        })
    }

    /// Translates a line of a trace, with its line feed where it has one, by this map of the script at `url`.
    pub fn translate_line(
        &self, url: &str, line: &[u8], options: impl Into<TraceOptions>,
    ) -> Result<Line, Error> {
        let (mut outcome, how) = (0, options.into().how());
        let (map, url, url_len) = (self.0.get(), url.as_ptr(), url.len());
        let (line, line_len) = (line.as_ptr(), line.len());
        let text = copied(|out, room, len| unsafe {
            smap_translate_line(map, url, url_len, line, line_len, how, out, room, len, &mut outcome)
        });
        match (text, outcome) {
            (None, _) => Err(Error::Memory),
            (Some(_), DROPPED) => Ok(Line::Dropped),
            (Some(text), TRANSLATED) => Ok(Line::Translated(text)),
            (Some(text), _) => Ok(Line::Kept(text)),
        }
    }
}

/// Scripts, each a URL and a map, by which traces are translated.
pub struct Scripts(UnsafeCell<raw::Scripts>);

// As for `Map`.
unsafe impl Send for Scripts {}

impl Drop for Scripts {
    fn drop(&mut self) {
        unsafe { smap_close_scripts(self.0.get()) }
    }
}

impl Default for Scripts {
    fn default() -> Scripts {
        Scripts::new()
    }
}

impl Scripts {
    /// No scripts.
    pub fn new() -> Scripts {
        Scripts(UnsafeCell::default())
    }

    /// Adds a script. It shares the map. A script of the same URL gets this map in place of its own.
    pub fn add(&mut self, url: &str, map: &Map) -> Result<(), Error> {
        let code = unsafe { smap_add_script(self.0.get(), url.as_ptr(), url.len(), map.0.get()) };
        if code == OK { Ok(()) } else { Err(Error::Memory) }
    }

    /// A whole trace with its positions replaced by those in the sources, and the counts of its lines.
    pub fn translate(
        &self, trace: &[u8], options: impl Into<TraceOptions>,
    ) -> Result<(Vec<u8>, TraceCounts), Error> {
        let (mut counts, how) = (TraceCounts::default(), options.into().how());
        let (scripts, text, len) = (self.0.get(), trace.as_ptr(), trace.len());
        if !unsafe { (*scripts).is_open } {
            counts.lines = trace.split_inclusive(|&byte| byte == b'\n').count() as u64;
            return Ok((trace.to_vec(), counts));
        }
        written(|out| unsafe { smap_translate(scripts, text, len, how, out, &mut counts) })
            .map(|told| (told, counts))
            .map_err(|_| Error::Memory)
    }
}

/// A map that is built. Sources and names get numbers, by which mappings name them.
///
/// ```text
/// let mut builder = smap::Builder::new("http://h/m/out.js.map", smap::Limits::default())?;
/// let source = builder.source(Some("a.ts"))?;
/// builder.add(&[[0, 7, source, 10, 2, u32::MAX]])?;
/// let map = builder.finish()?;
/// ```
pub struct Builder(raw::Builder);

// As for `Map`.
unsafe impl Send for Builder {}

impl Drop for Builder {
    fn drop(&mut self) {
        unsafe { smap_builder_close(&mut self.0) }
    }
}

/// Whether there is a text, where it is, and its length.
fn optional(text: Option<&str>) -> (bool, *const u8, usize) {
    let bytes = text.unwrap_or_default();
    (text.is_some(), bytes.as_ptr(), bytes.len())
}

impl Builder {
    /// Nothing yet, for a map whose URL is `base`.
    pub fn new(base: &str, limits: Limits) -> Result<Builder, Error> {
        let mut builder = Builder(raw::Builder::default());
        built(unsafe { smap_builder_open(&mut builder.0, base.as_ptr(), base.len(), &limits) })?;
        Ok(builder)
    }

    /// Gives the generated file a name, or none, as at first.
    pub fn set_file(&mut self, file: Option<&str>) -> Result<(), Error> {
        let (has, at, len) = optional(file);
        built(unsafe { smap_builder_file(&mut self.0, has, at, len) })
    }

    /// The number of the source with this URL, which may be relative to the base, or of the one without a
    /// URL. The first call lists it, after the others, without content and not ignored.
    pub fn source(&mut self, url: Option<&str>) -> Result<u32, Error> {
        let ((has, at, len), mut number) = (optional(url), 0);
        built(unsafe { smap_builder_source(&mut self.0, has, at, len, &mut number) })?;
        Ok(number)
    }

    /// Gives a source its content, or none.
    ///
    /// # Panics
    ///
    /// The number isn't that of a source.
    pub fn set_content(&mut self, source: u32, content: Option<&str>) -> Result<(), Error> {
        let (has, at, len) = optional(content);
        let code = unsafe { smap_builder_content(&mut self.0, source, has, at, len) };
        assert_ne!(code, RANGE, "no source has the number {source}");
        built(code)
    }

    /// Says whether a source is ignored.
    ///
    /// # Panics
    ///
    /// The number isn't that of a source.
    pub fn set_ignored(&mut self, source: u32, is_ignored: bool) {
        let code = unsafe { smap_builder_ignore(&mut self.0, source, is_ignored) };
        assert_eq!(code, OK, "no source has the number {source}");
    }

    /// The number of a name. The first call lists it, after the others.
    pub fn name(&mut self, name: &str) -> Result<u32, Error> {
        let mut number = 0;
        built(unsafe { smap_builder_name(&mut self.0, name.as_ptr(), name.len(), &mut number) })?;
        Ok(number)
    }

    /// Adds mappings, in any order, by six numbers each, as for `spell`; or none of them if one is wrong, or
    /// has a line beyond the limit, or a source or a name that there isn't.
    pub fn add(&mut self, mappings: &[[u32; 6]]) -> Result<(), SpellError> {
        let (numbers, mut wrong) = (mappings.as_ptr() as *const u32, 0);
        match unsafe { smap_builder_add(&mut self.0, numbers, mappings.len(), &mut wrong) } {
            OK => Ok(()),
            RANGE => Err(SpellError::Wrong(wrong)),
            _ => Err(SpellError::Memory),
        }
    }

    /// The map. Its mappings are sorted; those at one position are in the order in which they were added.
    pub fn finish(mut self) -> Result<Map, Error> {
        let map = Map::closed();
        built(unsafe { smap_builder_finish(&mut self.0, map.0.get()) })?;
        Ok(map)
    }
}

/// What a call on a builder came to.
fn built(code: u32) -> Result<(), Error> {
    if code == OK { Ok(()) } else { Err(error(code, &raw::Fault::default())) }
}

// What smap.h declares, to the end of the file: tools/write-bindings writes this out of capi/smap.h.
impl Map {
    // An answer is none if there is nothing of that kind.

    /// About how many bytes of memory the map takes, its strings and mappings included.
    pub fn held(&self) -> usize {
        let mut out = 0;
        unsafe { smap_held(self.0.get(), &mut out) };
        out
    }

    /// Whether a source is ignored.
    pub fn is_ignored(&self, source: usize) -> Option<bool> {
        let mut out = false;
        let code = unsafe { smap_is_ignored(self.0.get(), source, &mut out) };
        (code == OK).then_some(out)
    }

    /// The number, among the distinct sources, of the i-th one that the map lists.
    pub fn listed_source(&self, i: usize) -> Option<usize> {
        let mut out = 0;
        let code = unsafe { smap_listed_source(self.0.get(), i, &mut out) };
        (code == OK).then_some(out)
    }

    /// The name of the generated file.
    pub fn file(&self) -> Option<String> {
        text_of(|out, room, len| unsafe { smap_file(self.0.get(), out, room, len) })
    }

    /// The name of the mapping for a generated position.
    pub fn name_at(&self, line: u32, column: u32) -> Option<String> {
        text_of(|out, room, len| unsafe { smap_name_at(self.0.get(), line, column, out, room, len) })
    }

    /// The URL of a source.
    pub fn url(&self, source: usize) -> Option<String> {
        text_of(|out, room, len| unsafe { smap_source_url(self.0.get(), source, out, room, len) })
    }

    /// The content of a source.
    pub fn content(&self, source: usize) -> Option<String> {
        text_of(|out, room, len| unsafe { smap_source_content(self.0.get(), source, out, room, len) })
    }

    /// The i-th source that the map lists, as its text writes it: not resolved, and without its
    /// `sourceRoot`.
    pub fn written_source(&self, i: usize) -> Option<String> {
        text_of(|out, room, len| unsafe { smap_written_source(self.0.get(), i, out, room, len) })
    }

    /// The `sourceRoot` that applies to the i-th source that the map lists, which may be empty: in an
    /// index map that of the section's map.
    pub fn written_root(&self, i: usize) -> Option<String> {
        text_of(|out, room, len| unsafe { smap_written_root(self.0.get(), i, out, room, len) })
    }

    /// The i-th name that the map lists.
    pub fn listed_name(&self, i: usize) -> Option<String> {
        text_of(|out, room, len| unsafe { smap_listed_name(self.0.get(), i, out, room, len) })
    }

    /// The map in canonical form, the same bytes for all maps that mean the same; URLs are absolute.
    pub fn canonical(&self) -> Result<Vec<u8>, Error> {
        written(|out| unsafe { smap_canonical(self.0.get(), out) }).map_err(|_| Error::Memory)
    }

    /// The same, with URLs relative to the map's base if these resolve to the same URLs again.
    pub fn canonical_relative(&self) -> Result<Vec<u8>, Error> {
        written(|out| unsafe { smap_canonical_relative(self.0.get(), out) }).map_err(|_| Error::Memory)
    }

    /// The `mappings` of the canonical form alone.
    pub fn canonical_mappings(&self) -> Result<Vec<u8>, Error> {
        written(|out| unsafe { smap_canonical_mappings(self.0.get(), out) }).map_err(|_| Error::Memory)
    }

    /// The map as one flat map, with sources and names as listed.
    pub fn flatten(&self) -> Result<Vec<u8>, Error> {
        written(|out| unsafe { smap_flatten(self.0.get(), out) }).map_err(|_| Error::Memory)
    }
}

mod raw {
    pub const OK: u32 = 0;
    pub const REFUSED: u32 = 1;
    pub const NOT_URL: u32 = 2;
    pub const LIMITS: u32 = 3;
    pub const MEMORY: u32 = 4;
    pub const CLOSED: u32 = 5;
    pub const NONE: u32 = 6;
    pub const RANGE: u32 = 7;
    pub const URL_BYTES: u32 = 8;
    pub const NOT_BASE64: u32 = 9;
    pub const NOT_UTF8: u32 = 10;
    pub const TOO_MANY: u32 = 11;
    pub const FAULT_PREFIX: u32 = 1;
    pub const FAULT_JSON: u32 = 2;
    pub const FAULT_NOT_OBJECT: u32 = 3;
    pub const FAULT_VERSION: u32 = 4;
    pub const FAULT_FILE: u32 = 5;
    pub const FAULT_BOTH: u32 = 6;
    pub const FAULT_SOURCE_ROOT: u32 = 7;
    pub const FAULT_SOURCES: u32 = 8;
    pub const FAULT_SOURCES_CONTENT: u32 = 9;
    pub const FAULT_NAMES: u32 = 10;
    pub const FAULT_IGNORE_LIST: u32 = 11;
    pub const FAULT_MAPPINGS: u32 = 12;
    pub const FAULT_SECTIONS: u32 = 13;
    pub const FAULT_OFFSET: u32 = 14;
    pub const FAULT_SECTION_MAP: u32 = 15;
    pub const FAULT_NESTED: u32 = 16;
    pub const FAULT_ORDER: u32 = 17;
    pub const FAULT_OVERLAP: u32 = 18;
    pub const FAULT_TOO_MANY: u32 = 19;
    pub const FAULT_SOURCE_URL: u32 = 20;
    pub const FAULT_UNSTABLE_URL: u32 = 21;
    pub const FAULT_EMPTY: u32 = 22;
    pub const FAULT_UNFINISHED: u32 = 23;
    pub const FAULT_CHARACTER: u32 = 24;
    pub const FAULT_TOO_LARGE: u32 = 25;
    pub const FAULT_NEGATIVE_ZERO: u32 = 26;
    pub const FAULT_COUNT: u32 = 27;
    pub const FAULT_GENERATED_LINE: u32 = 28;
    pub const FAULT_COLUMN: u32 = 29;
    pub const FAULT_SOURCE: u32 = 30;
    pub const FAULT_ORIGINAL_LINE: u32 = 31;
    pub const FAULT_ORIGINAL_COLUMN: u32 = 32;
    pub const FAULT_NAME: u32 = 33;
    pub const KEPT: u32 = 0;
    pub const TRANSLATED: u32 = 1;
    pub const DROPPED: u32 = 2;
    pub const HIDE_IGNORED: u32 = 1;
    pub const ANYWHERE: u32 = 2;
    pub const IGNORE_QUERY: u32 = 4;
    pub const NAMES: u32 = 8;
    pub const FILE_OTHER: u32 = 0;
    pub const FILE_SCRIPT: u32 = 1;
    pub const FILE_STYLE_SHEET: u32 = 2;
    pub const FILE_MAP: u32 = 3;
    pub const NAMED_UNSAID: u32 = 0;
    pub const NAMED_NOTHING: u32 = 1;
    pub const NAMED_INLINE: u32 = 2;
    pub const NAMED_FILE: u32 = 3;
    pub const NAMED_GARBLED: u32 = 4;
    pub const NAMED_NO_NAME: u32 = 5;
    pub const NAMED_NOT_URL: u32 = 6;
    pub const NAMED_LEAVES: u32 = 7;

    #[repr(C)]
    #[derive(Clone, Copy, Debug, PartialEq, Eq)]
    pub struct Fault {
        pub kind: u32,
        pub line: u32,
        pub segment: u32,
        pub has_place: bool,
        pub number: usize,
        pub depth: usize,
        pub section: [usize; 8],
        pub text_len: usize,
        pub text: [u8; 264],
    }

    impl Default for Fault {
        fn default() -> Fault {
            // zeros are a value of each field
            unsafe { std::mem::zeroed() }
        }
    }

    #[repr(C)]
    #[derive(Debug)]
    pub struct Map {
        pub is_open: bool,
        pub at: *mut u8,
    }

    impl Default for Map {
        fn default() -> Map {
            // zeros are a value of each field
            unsafe { std::mem::zeroed() }
        }
    }

    #[repr(C)]
    #[derive(Clone, Copy, Debug, PartialEq, Eq, Default)]
    pub struct Limits {
        pub items: u32,
        pub lines: u32,
    }

    #[repr(C)]
    #[derive(Clone, Copy, Debug, PartialEq, Eq, Default)]
    pub struct Counts {
        pub sources: usize,
        pub listed_sources: usize,
        pub names: usize,
        pub mappings: usize,
        pub lines: u32,
    }

    #[repr(C)]
    #[derive(Clone, Copy, Debug, PartialEq, Eq, Default)]
    pub struct Mapping {
        pub line: u32,
        pub column: u32,
        pub has_source: bool,
        pub has_name: bool,
        pub is_ignored: bool,
        pub source_line: u32,
        pub source_column: u32,
        pub source: usize,
    }

    #[repr(C)]
    #[derive(Clone, Copy, Debug, PartialEq, Eq, Default)]
    pub struct ListedMapping {
        pub line: u32,
        pub column: u32,
        pub has_source: bool,
        pub has_name: bool,
        pub source_line: u32,
        pub source_column: u32,
        pub source: u32,
        pub name: u32,
    }

    #[repr(C)]
    #[derive(Debug)]
    pub struct Builder {
        pub is_open: bool,
        pub at: *mut u8,
    }

    impl Default for Builder {
        fn default() -> Builder {
            // zeros are a value of each field
            unsafe { std::mem::zeroed() }
        }
    }

    #[repr(C)]
    #[derive(Debug)]
    pub struct Bytes {
        pub is_open: bool,
        pub at: *mut u8,
    }

    impl Default for Bytes {
        fn default() -> Bytes {
            // zeros are a value of each field
            unsafe { std::mem::zeroed() }
        }
    }

    #[repr(C)]
    #[derive(Clone, Copy, Debug, PartialEq, Eq, Default)]
    pub struct FrameParts {
        pub url_from: usize,
        pub url_len: usize,
        pub line: u32,
        pub column: u32,
    }

    #[repr(C)]
    #[derive(Debug)]
    pub struct Scripts {
        pub is_open: bool,
        pub at: *mut u8,
    }

    impl Default for Scripts {
        fn default() -> Scripts {
            // zeros are a value of each field
            unsafe { std::mem::zeroed() }
        }
    }

    #[repr(C)]
    #[derive(Clone, Copy, Debug, PartialEq, Eq, Default)]
    pub struct TraceCounts {
        pub lines: u64,
        pub translated: u64,
        pub dropped: u64,
    }

    unsafe extern "C" {
        pub fn smap_version() -> u32;
        pub fn smap_code_name(code: u32, out: *mut u8, room: usize) -> usize;
        pub fn smap_fault_name(kind: u32, out: *mut u8, room: usize) -> usize;
        pub fn smap_open(
            map: *mut Map, text: *const u8, len: usize, base: *const u8, base_len: usize,
            limits: *const Limits, fault: *mut Fault,
        ) -> u32;
        pub fn smap_open_within(
            map: *mut Map, text: *const u8, len: usize, base: *const u8, base_len: usize,
            limits: *const Limits, url_bytes: usize, fault: *mut Fault,
        ) -> u32;
        pub fn smap_close(map: *mut Map);
        pub fn smap_share(map: *mut Map, other: *mut Map) -> u32;
        pub fn smap_same(one: *mut Map, other: *mut Map, out: *mut bool) -> u32;
        pub fn smap_count(map: *mut Map, out: *mut Counts) -> u32;
        pub fn smap_held(map: *mut Map, out: *mut usize) -> u32;
        pub fn smap_file(map: *mut Map, out: *mut u8, room: usize, len: *mut usize) -> u32;
        pub fn smap_lookup(map: *mut Map, line: u32, column: u32, out: *mut Mapping) -> u32;
        pub fn smap_find(map: *mut Map, line: u32, column: u32, out: *mut usize) -> u32;
        pub fn smap_name_at(
            map: *mut Map, line: u32, column: u32, out: *mut u8, room: usize, len: *mut usize,
        ) -> u32;
        pub fn smap_token(map: *mut Map, i: usize, out: *mut Mapping) -> u32;
        pub fn smap_source_url(
            map: *mut Map, source: usize, out: *mut u8, room: usize, len: *mut usize,
        ) -> u32;
        pub fn smap_source_content(
            map: *mut Map, source: usize, out: *mut u8, room: usize, len: *mut usize,
        ) -> u32;
        pub fn smap_is_ignored(map: *mut Map, source: usize, out: *mut bool) -> u32;
        pub fn smap_listed_source(map: *mut Map, i: usize, out: *mut usize) -> u32;
        pub fn smap_written_source(
            map: *mut Map, i: usize, out: *mut u8, room: usize, len: *mut usize,
        ) -> u32;
        pub fn smap_written_root(map: *mut Map, i: usize, out: *mut u8, room: usize, len: *mut usize) -> u32;
        pub fn smap_listed_name(map: *mut Map, i: usize, out: *mut u8, room: usize, len: *mut usize) -> u32;
        pub fn smap_listed_token(map: *mut Map, i: usize, out: *mut ListedMapping) -> u32;
        pub fn smap_compose(
            outer: *mut Map, inner: *mut Map, inner_count: usize, leads: *const usize, leads_count: usize,
            limits: *const Limits, out: *mut Map,
        ) -> u32;
        pub fn smap_thin(map: *mut Map, out: *mut Map) -> u32;
        pub fn smap_only_used(map: *mut Map, out: *mut Map) -> u32;
        pub fn smap_builder_open(
            builder: *mut Builder, base: *const u8, base_len: usize, limits: *const Limits,
        ) -> u32;
        pub fn smap_builder_file(builder: *mut Builder, has_file: bool, file: *const u8, len: usize) -> u32;
        pub fn smap_builder_source(
            builder: *mut Builder, has_url: bool, url: *const u8, len: usize, number: *mut u32,
        ) -> u32;
        pub fn smap_builder_content(
            builder: *mut Builder, source: u32, has_content: bool, content: *const u8, len: usize,
        ) -> u32;
        pub fn smap_builder_ignore(builder: *mut Builder, source: u32, is_ignored: bool) -> u32;
        pub fn smap_builder_name(builder: *mut Builder, name: *const u8, len: usize, number: *mut u32) -> u32;
        pub fn smap_builder_add(
            builder: *mut Builder, numbers: *const u32, mappings: usize, wrong: *mut usize,
        ) -> u32;
        pub fn smap_builder_finish(builder: *mut Builder, out: *mut Map) -> u32;
        pub fn smap_builder_close(builder: *mut Builder);
        pub fn smap_bytes_data(bytes: *mut Bytes, at: *mut *const u8, len: *mut usize) -> u32;
        pub fn smap_bytes_copy(bytes: *mut Bytes, from: usize, out: *mut u8, room: usize) -> usize;
        pub fn smap_bytes_free(bytes: *mut Bytes);
        pub fn smap_canonical(map: *mut Map, out: *mut Bytes) -> u32;
        pub fn smap_canonical_relative(map: *mut Map, out: *mut Bytes) -> u32;
        pub fn smap_canonical_mappings(map: *mut Map, out: *mut Bytes) -> u32;
        pub fn smap_flatten(map: *mut Map, out: *mut Bytes) -> u32;
        pub fn smap_respell(text: *const u8, len: usize, out: *mut Bytes, fault: *mut Fault) -> u32;
        pub fn smap_spell(numbers: *const u32, mappings: usize, out: *mut Bytes, wrong: *mut usize) -> u32;
        pub fn smap_frame(line: *const u8, len: usize, out: *mut FrameParts) -> u32;
        pub fn smap_translate_line(
            map: *mut Map, url: *const u8, url_len: usize, line: *const u8, line_len: usize, how: u8,
            out: *mut u8, room: usize, len: *mut usize, outcome: *mut u32,
        ) -> u32;
        pub fn smap_add_script(scripts: *mut Scripts, url: *const u8, url_len: usize, map: *mut Map) -> u32;
        pub fn smap_close_scripts(scripts: *mut Scripts);
        pub fn smap_translate(
            scripts: *mut Scripts, trace: *const u8, len: usize, how: u8, out: *mut Bytes,
            counts: *mut TraceCounts,
        ) -> u32;
        pub fn smap_script_link(
            text: *const u8, len: usize, css: bool, out: *mut u8, room: usize, url_len: *mut usize,
        ) -> u32;
        pub fn smap_resolve(
            script: *const u8, script_len: usize, url: *const u8, url_len: usize, out: *mut Bytes,
        ) -> u32;
        pub fn smap_data_url(url: *const u8, len: usize, out: *mut Bytes) -> u32;
        pub fn smap_file_url(path: *const u8, len: usize, out: *mut Bytes) -> u32;
        pub fn smap_file_path(url: *const u8, len: usize, out: *mut Bytes) -> u32;
        pub fn smap_script_url(
            folder: *const u8, folder_len: usize, name: *const u8, name_len: usize, out: *mut Bytes,
        ) -> u32;
        pub fn smap_script_name(
            folder: *const u8, folder_len: usize, url: *const u8, url_len: usize, out: *mut Bytes,
        ) -> u32;
        pub fn smap_file_kind(name: *const u8, len: usize) -> u32;
        pub fn smap_named_map(
            folder: *const u8, folder_len: usize, name: *const u8, name_len: usize, text: *const u8,
            len: usize, out: *mut Bytes, kind: *mut u32,
        ) -> u32;
        pub fn smap_script_map(
            folder: *const u8, folder_len: usize, name: *const u8, name_len: usize, text: *const u8,
            len: usize, tried: usize, out: *mut Bytes, kind: *mut u32,
        ) -> u32;
        pub fn smap_normal_form(name: *const u8, len: usize, with_query: bool, out: *mut Bytes) -> u32;
        pub fn smap_alike(
            one: *const u8, one_len: usize, other: *const u8, other_len: usize, out: *mut bool,
        ) -> u32;
    }
}
