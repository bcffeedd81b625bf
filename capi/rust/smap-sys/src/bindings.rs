// tools/write-bindings writes this out of capi/smap.h.

use std::os::raw::{c_char, c_void};

pub const SMAP_VERSION_MAJOR: u32 = 0;
pub const SMAP_VERSION_MINOR: u32 = 3;
pub const SMAP_VERSION_PATCH: u32 = 0;
pub const SMAP_VERSION: u32 = SMAP_VERSION_MAJOR * 10000 + SMAP_VERSION_MINOR * 100 + SMAP_VERSION_PATCH;
pub const SMAP_OK: u32 = 0;
pub const SMAP_REFUSED: u32 = 1;
pub const SMAP_NOT_URL: u32 = 2;
pub const SMAP_LIMITS: u32 = 3;
pub const SMAP_MEMORY: u32 = 4;
pub const SMAP_CLOSED: u32 = 5;
pub const SMAP_NONE: u32 = 6;
pub const SMAP_RANGE: u32 = 7;
pub const SMAP_URL_BYTES: u32 = 8;
pub const SMAP_NOT_BASE64: u32 = 9;
pub const SMAP_NOT_UTF8: u32 = 10;
pub const SMAP_TOO_MANY: u32 = 11;
pub const SMAP_FAULT_PREFIX: u32 = 1;
pub const SMAP_FAULT_JSON: u32 = 2;
pub const SMAP_FAULT_NOT_OBJECT: u32 = 3;
pub const SMAP_FAULT_VERSION: u32 = 4;
pub const SMAP_FAULT_FILE: u32 = 5;
pub const SMAP_FAULT_BOTH: u32 = 6;
pub const SMAP_FAULT_SOURCE_ROOT: u32 = 7;
pub const SMAP_FAULT_SOURCES: u32 = 8;
pub const SMAP_FAULT_SOURCES_CONTENT: u32 = 9;
pub const SMAP_FAULT_NAMES: u32 = 10;
pub const SMAP_FAULT_IGNORE_LIST: u32 = 11;
pub const SMAP_FAULT_MAPPINGS: u32 = 12;
pub const SMAP_FAULT_SECTIONS: u32 = 13;
pub const SMAP_FAULT_OFFSET: u32 = 14;
pub const SMAP_FAULT_SECTION_MAP: u32 = 15;
pub const SMAP_FAULT_NESTED: u32 = 16;
pub const SMAP_FAULT_ORDER: u32 = 17;
pub const SMAP_FAULT_OVERLAP: u32 = 18;
pub const SMAP_FAULT_TOO_MANY: u32 = 19;
pub const SMAP_FAULT_SOURCE_URL: u32 = 20;
pub const SMAP_FAULT_UNSTABLE_URL: u32 = 21;
pub const SMAP_FAULT_EMPTY: u32 = 22;
pub const SMAP_FAULT_UNFINISHED: u32 = 23;
pub const SMAP_FAULT_CHARACTER: u32 = 24;
pub const SMAP_FAULT_TOO_LARGE: u32 = 25;
pub const SMAP_FAULT_NEGATIVE_ZERO: u32 = 26;
pub const SMAP_FAULT_COUNT: u32 = 27;
pub const SMAP_FAULT_GENERATED_LINE: u32 = 28;
pub const SMAP_FAULT_COLUMN: u32 = 29;
pub const SMAP_FAULT_SOURCE: u32 = 30;
pub const SMAP_FAULT_ORIGINAL_LINE: u32 = 31;
pub const SMAP_FAULT_ORIGINAL_COLUMN: u32 = 32;
pub const SMAP_FAULT_NAME: u32 = 33;
pub const SMAP_KEPT: u32 = 0;
pub const SMAP_TRANSLATED: u32 = 1;
pub const SMAP_DROPPED: u32 = 2;
pub const SMAP_HIDE_IGNORED: u32 = 1;
pub const SMAP_ANYWHERE: u32 = 2;
pub const SMAP_IGNORE_QUERY: u32 = 4;
pub const SMAP_NAMES: u32 = 8;
pub const SMAP_FILE_OTHER: u32 = 0;
pub const SMAP_FILE_SCRIPT: u32 = 1;
pub const SMAP_FILE_STYLE_SHEET: u32 = 2;
pub const SMAP_FILE_MAP: u32 = 3;
pub const SMAP_NAMED_UNSAID: u32 = 0;
pub const SMAP_NAMED_NOTHING: u32 = 1;
pub const SMAP_NAMED_INLINE: u32 = 2;
pub const SMAP_NAMED_FILE: u32 = 3;
pub const SMAP_NAMED_GARBLED: u32 = 4;
pub const SMAP_NAMED_NO_NAME: u32 = 5;
pub const SMAP_NAMED_NOT_URL: u32 = 6;
pub const SMAP_NAMED_LEAVES: u32 = 7;

#[repr(C)]
#[derive(Clone, Copy, Debug, PartialEq, Eq)]
pub struct smap_fault {
    pub kind: u32,
    pub line: u32,
    pub segment: u32,
    pub has_place: bool,
    pub number: usize,
    pub depth: usize,
    pub section: [usize; 8],
    pub text_len: usize,
    pub text: [c_char; 264],
}

impl Default for smap_fault {
    fn default() -> smap_fault {
        // zeros are a value of each field
        unsafe { std::mem::zeroed() }
    }
}

#[repr(C)]
#[derive(Debug)]
pub struct smap_map {
    pub is_open: bool,
    pub at: *mut c_void,
}

impl Default for smap_map {
    fn default() -> smap_map {
        // zeros are a value of each field
        unsafe { std::mem::zeroed() }
    }
}

#[repr(C)]
#[derive(Clone, Copy, Debug, PartialEq, Eq, Default)]
pub struct smap_limits {
    pub items: u32,
    pub lines: u32,
}

#[repr(C)]
#[derive(Clone, Copy, Debug, PartialEq, Eq, Default)]
pub struct smap_counts {
    pub sources: usize,
    pub listed_sources: usize,
    pub names: usize,
    pub mappings: usize,
    pub lines: u32,
}

#[repr(C)]
#[derive(Clone, Copy, Debug, PartialEq, Eq, Default)]
pub struct smap_mapping {
    pub line: u32,
    pub column: u32,
    pub has_source: bool,
    pub has_name: bool,
    pub is_ignored: bool,
    pub source_line: u32,
    pub source_column: u32,
    pub source: usize,
}

#[repr(C)]
#[derive(Clone, Copy, Debug, PartialEq, Eq, Default)]
pub struct smap_listed_mapping {
    pub line: u32,
    pub column: u32,
    pub has_source: bool,
    pub has_name: bool,
    pub source_line: u32,
    pub source_column: u32,
    pub source: u32,
    pub name: u32,
}

#[repr(C)]
#[derive(Debug)]
pub struct smap_builder {
    pub is_open: bool,
    pub at: *mut c_void,
}

impl Default for smap_builder {
    fn default() -> smap_builder {
        // zeros are a value of each field
        unsafe { std::mem::zeroed() }
    }
}

#[repr(C)]
#[derive(Debug)]
pub struct smap_bytes {
    pub is_open: bool,
    pub at: *mut c_void,
}

impl Default for smap_bytes {
    fn default() -> smap_bytes {
        // zeros are a value of each field
        unsafe { std::mem::zeroed() }
    }
}

#[repr(C)]
#[derive(Clone, Copy, Debug, PartialEq, Eq, Default)]
pub struct smap_frame_parts {
    pub url_from: usize,
    pub url_len: usize,
    pub line: u32,
    pub column: u32,
}

#[repr(C)]
#[derive(Debug)]
pub struct smap_scripts {
    pub is_open: bool,
    pub at: *mut c_void,
}

impl Default for smap_scripts {
    fn default() -> smap_scripts {
        // zeros are a value of each field
        unsafe { std::mem::zeroed() }
    }
}

#[repr(C)]
#[derive(Clone, Copy, Debug, PartialEq, Eq, Default)]
pub struct smap_trace_counts {
    pub lines: u64,
    pub translated: u64,
    pub dropped: u64,
}

extern "C" {
    pub fn smap_version() -> u32;
    pub fn smap_code_name(code: u32, out: *mut c_char, room: usize) -> usize;
    pub fn smap_fault_name(kind: u32, out: *mut c_char, room: usize) -> usize;
    pub fn smap_open(
        map: *mut smap_map, text: *const c_void, len: usize, base: *const c_char, base_len: usize,
        limits: *const smap_limits, fault: *mut smap_fault,
    ) -> u32;
    pub fn smap_open_within(
        map: *mut smap_map, text: *const c_void, len: usize, base: *const c_char, base_len: usize,
        limits: *const smap_limits, url_bytes: usize, fault: *mut smap_fault,
    ) -> u32;
    pub fn smap_close(map: *mut smap_map);
    pub fn smap_share(map: *mut smap_map, other: *mut smap_map) -> u32;
    pub fn smap_same(one: *mut smap_map, other: *mut smap_map, out: *mut bool) -> u32;
    pub fn smap_count(map: *mut smap_map, out: *mut smap_counts) -> u32;
    pub fn smap_held(map: *mut smap_map, out: *mut usize) -> u32;
    pub fn smap_file(map: *mut smap_map, out: *mut c_char, room: usize, len: *mut usize) -> u32;
    pub fn smap_lookup(map: *mut smap_map, line: u32, column: u32, out: *mut smap_mapping) -> u32;
    pub fn smap_find(map: *mut smap_map, line: u32, column: u32, out: *mut usize) -> u32;
    pub fn smap_name_at(
        map: *mut smap_map, line: u32, column: u32, out: *mut c_char, room: usize, len: *mut usize,
    ) -> u32;
    pub fn smap_token(map: *mut smap_map, i: usize, out: *mut smap_mapping) -> u32;
    pub fn smap_source_url(
        map: *mut smap_map, source: usize, out: *mut c_char, room: usize, len: *mut usize,
    ) -> u32;
    pub fn smap_source_content(
        map: *mut smap_map, source: usize, out: *mut c_char, room: usize, len: *mut usize,
    ) -> u32;
    pub fn smap_is_ignored(map: *mut smap_map, source: usize, out: *mut bool) -> u32;
    pub fn smap_listed_source(map: *mut smap_map, i: usize, out: *mut usize) -> u32;
    pub fn smap_written_source(
        map: *mut smap_map, i: usize, out: *mut c_char, room: usize, len: *mut usize,
    ) -> u32;
    pub fn smap_written_root(
        map: *mut smap_map, i: usize, out: *mut c_char, room: usize, len: *mut usize,
    ) -> u32;
    pub fn smap_listed_name(
        map: *mut smap_map, i: usize, out: *mut c_char, room: usize, len: *mut usize,
    ) -> u32;
    pub fn smap_listed_token(map: *mut smap_map, i: usize, out: *mut smap_listed_mapping) -> u32;
    pub fn smap_compose(
        outer: *mut smap_map, inner: *mut smap_map, inner_count: usize, leads: *const usize,
        leads_count: usize, limits: *const smap_limits, out: *mut smap_map,
    ) -> u32;
    pub fn smap_thin(map: *mut smap_map, out: *mut smap_map) -> u32;
    pub fn smap_only_used(map: *mut smap_map, out: *mut smap_map) -> u32;
    pub fn smap_builder_open(
        builder: *mut smap_builder, base: *const c_char, base_len: usize, limits: *const smap_limits,
    ) -> u32;
    pub fn smap_builder_file(
        builder: *mut smap_builder, has_file: bool, file: *const c_char, len: usize,
    ) -> u32;
    pub fn smap_builder_source(
        builder: *mut smap_builder, has_url: bool, url: *const c_char, len: usize, number: *mut u32,
    ) -> u32;
    pub fn smap_builder_content(
        builder: *mut smap_builder, source: u32, has_content: bool, content: *const c_char, len: usize,
    ) -> u32;
    pub fn smap_builder_ignore(builder: *mut smap_builder, source: u32, is_ignored: bool) -> u32;
    pub fn smap_builder_name(
        builder: *mut smap_builder, name: *const c_char, len: usize, number: *mut u32,
    ) -> u32;
    pub fn smap_builder_add(
        builder: *mut smap_builder, numbers: *const u32, mappings: usize, wrong: *mut usize,
    ) -> u32;
    pub fn smap_builder_finish(builder: *mut smap_builder, out: *mut smap_map) -> u32;
    pub fn smap_builder_close(builder: *mut smap_builder);
    pub fn smap_bytes_data(bytes: *mut smap_bytes, at: *mut *const u8, len: *mut usize) -> u32;
    pub fn smap_bytes_copy(bytes: *mut smap_bytes, from: usize, out: *mut c_void, room: usize) -> usize;
    pub fn smap_bytes_free(bytes: *mut smap_bytes);
    pub fn smap_canonical(map: *mut smap_map, out: *mut smap_bytes) -> u32;
    pub fn smap_canonical_relative(map: *mut smap_map, out: *mut smap_bytes) -> u32;
    pub fn smap_canonical_mappings(map: *mut smap_map, out: *mut smap_bytes) -> u32;
    pub fn smap_flatten(map: *mut smap_map, out: *mut smap_bytes) -> u32;
    pub fn smap_respell(
        text: *const c_char, len: usize, out: *mut smap_bytes, fault: *mut smap_fault,
    ) -> u32;
    pub fn smap_spell(
        numbers: *const u32, mappings: usize, out: *mut smap_bytes, wrong: *mut usize,
    ) -> u32;
    pub fn smap_frame(line: *const c_void, len: usize, out: *mut smap_frame_parts) -> u32;
    pub fn smap_translate_line(
        map: *mut smap_map, url: *const c_char, url_len: usize, line: *const c_void, line_len: usize,
        how: u8, out: *mut c_char, room: usize, len: *mut usize, outcome: *mut u32,
    ) -> u32;
    pub fn smap_add_script(
        scripts: *mut smap_scripts, url: *const c_char, url_len: usize, map: *mut smap_map,
    ) -> u32;
    pub fn smap_close_scripts(scripts: *mut smap_scripts);
    pub fn smap_translate(
        scripts: *mut smap_scripts, trace: *const c_void, len: usize, how: u8, out: *mut smap_bytes,
        counts: *mut smap_trace_counts,
    ) -> u32;
    pub fn smap_script_link(
        text: *const c_void, len: usize, css: bool, out: *mut c_char, room: usize, url_len: *mut usize,
    ) -> u32;
    pub fn smap_resolve(
        script: *const c_char, script_len: usize, url: *const c_char, url_len: usize,
        out: *mut smap_bytes,
    ) -> u32;
    pub fn smap_data_url(url: *const c_char, len: usize, out: *mut smap_bytes) -> u32;
    pub fn smap_file_url(path: *const c_char, len: usize, out: *mut smap_bytes) -> u32;
    pub fn smap_file_path(url: *const c_char, len: usize, out: *mut smap_bytes) -> u32;
    pub fn smap_script_url(
        folder: *const c_char, folder_len: usize, name: *const c_char, name_len: usize,
        out: *mut smap_bytes,
    ) -> u32;
    pub fn smap_script_name(
        folder: *const c_char, folder_len: usize, url: *const c_char, url_len: usize,
        out: *mut smap_bytes,
    ) -> u32;
    pub fn smap_file_kind(name: *const c_char, len: usize) -> u32;
    pub fn smap_named_map(
        folder: *const c_char, folder_len: usize, name: *const c_char, name_len: usize,
        text: *const c_void, len: usize, out: *mut smap_bytes, kind: *mut u32,
    ) -> u32;
    pub fn smap_script_map(
        folder: *const c_char, folder_len: usize, name: *const c_char, name_len: usize,
        text: *const c_void, len: usize, tried: usize, out: *mut smap_bytes, kind: *mut u32,
    ) -> u32;
    pub fn smap_normal_form(
        name: *const c_char, len: usize, with_query: bool, out: *mut smap_bytes,
    ) -> u32;
    pub fn smap_alike(
        one: *const c_char, one_len: usize, other: *const c_char, other_len: usize, out: *mut bool,
    ) -> u32;
}

#[cfg(test)]
mod tests {
    use super::*;
    use std::mem::{size_of, size_of_val};

    macro_rules! field {
        ($struct:ident, $name:ident, $at:expr, $size:expr) => {
            let it = $struct::default();
            let at = &it.$name as *const _ as usize - &it as *const _ as usize;
            assert_eq!((at, size_of_val(&it.$name)), ($at, $size), stringify!($struct.$name));
        };
    }

    macro_rules! whole {
        ($struct:ident, $size:expr) => {
            assert_eq!(size_of::<$struct>(), $size, stringify!($struct));
        };
    }

    #[test]
    fn fields_lie_where_c_has_them() {
        field!(smap_fault, kind, 0, 4);
        field!(smap_fault, line, 4, 4);
        field!(smap_fault, segment, 8, 4);
        field!(smap_fault, has_place, 12, 1);
        field!(smap_fault, number, 16, 8);
        field!(smap_fault, depth, 24, 8);
        field!(smap_fault, section, 32, 64);
        field!(smap_fault, text_len, 96, 8);
        field!(smap_fault, text, 104, 264);
        whole!(smap_fault, 368);
        field!(smap_map, is_open, 0, 1);
        field!(smap_map, at, 8, 8);
        whole!(smap_map, 16);
        field!(smap_limits, items, 0, 4);
        field!(smap_limits, lines, 4, 4);
        whole!(smap_limits, 8);
        field!(smap_counts, sources, 0, 8);
        field!(smap_counts, listed_sources, 8, 8);
        field!(smap_counts, names, 16, 8);
        field!(smap_counts, mappings, 24, 8);
        field!(smap_counts, lines, 32, 4);
        whole!(smap_counts, 40);
        field!(smap_mapping, line, 0, 4);
        field!(smap_mapping, column, 4, 4);
        field!(smap_mapping, has_source, 8, 1);
        field!(smap_mapping, has_name, 9, 1);
        field!(smap_mapping, is_ignored, 10, 1);
        field!(smap_mapping, source_line, 12, 4);
        field!(smap_mapping, source_column, 16, 4);
        field!(smap_mapping, source, 24, 8);
        whole!(smap_mapping, 32);
        field!(smap_listed_mapping, line, 0, 4);
        field!(smap_listed_mapping, column, 4, 4);
        field!(smap_listed_mapping, has_source, 8, 1);
        field!(smap_listed_mapping, has_name, 9, 1);
        field!(smap_listed_mapping, source_line, 12, 4);
        field!(smap_listed_mapping, source_column, 16, 4);
        field!(smap_listed_mapping, source, 20, 4);
        field!(smap_listed_mapping, name, 24, 4);
        whole!(smap_listed_mapping, 28);
        field!(smap_builder, is_open, 0, 1);
        field!(smap_builder, at, 8, 8);
        whole!(smap_builder, 16);
        field!(smap_bytes, is_open, 0, 1);
        field!(smap_bytes, at, 8, 8);
        whole!(smap_bytes, 16);
        field!(smap_frame_parts, url_from, 0, 8);
        field!(smap_frame_parts, url_len, 8, 8);
        field!(smap_frame_parts, line, 16, 4);
        field!(smap_frame_parts, column, 20, 4);
        whole!(smap_frame_parts, 24);
        field!(smap_scripts, is_open, 0, 1);
        field!(smap_scripts, at, 8, 8);
        whole!(smap_scripts, 16);
        field!(smap_trace_counts, lines, 0, 8);
        field!(smap_trace_counts, translated, 8, 8);
        field!(smap_trace_counts, dropped, 16, 8);
        whole!(smap_trace_counts, 24);
    }
}
