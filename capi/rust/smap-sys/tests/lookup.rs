//! The library is linked, and does what its declarations say.

use smap_sys::*;

const MAP: &[u8] = br#"{"version":3,"sources":["a.js"],"mappings":"AAUE"}"#;
const BASE: &[u8] = b"http://h/m/out.js.map";

fn open(map: &mut smap_map, text: &[u8], fault: &mut smap_fault) -> u32 {
    let limits = smap_limits::default();
    unsafe {
        smap_open(
            map,
            text.as_ptr().cast(),
            text.len(),
            BASE.as_ptr().cast(),
            BASE.len(),
            &limits,
            fault,
        )
    }
}

#[test]
fn a_position_is_looked_up() {
    let (mut map, mut fault) = (smap_map::default(), smap_fault::default());
    let mut found = smap_mapping::default();
    assert_eq!(open(&mut map, MAP, &mut fault), SMAP_OK);
    assert_eq!(unsafe { smap_lookup(&mut map, 0, 7, &mut found) }, SMAP_OK);
    assert_eq!((found.has_source, found.source_line, found.source_column), (true, 10, 2));
    let (mut url, mut len) = ([0u8; 32], 0);
    let code = unsafe {
        smap_source_url(&mut map, found.source, url.as_mut_ptr().cast(), url.len(), &mut len)
    };
    assert_eq!((code, &url[..len]), (SMAP_OK, &b"http://h/m/a.js"[..]));
    unsafe { smap_close(&mut map) };
    assert!(!map.is_open);
}

#[test]
fn an_error_is_told() {
    let (mut map, mut fault) = (smap_map::default(), smap_fault::default());
    let text = br#"{"version":3,"mappings":"A,B"}"#;
    assert_eq!(open(&mut map, text, &mut fault), SMAP_REFUSED);
    assert_eq!((fault.kind, fault.line, fault.segment), (SMAP_FAULT_NEGATIVE_ZERO, 0, 1));
}

#[test]
fn the_library_is_of_the_version_of_the_declarations() {
    assert_eq!(SMAP_VERSION_MAJOR.to_string(), env!("CARGO_PKG_VERSION_MAJOR"));
    assert_eq!(SMAP_VERSION_MINOR.to_string(), env!("CARGO_PKG_VERSION_MINOR"));
    assert_eq!(SMAP_VERSION_PATCH.to_string(), env!("CARGO_PKG_VERSION_PATCH"));
    assert_eq!(unsafe { smap_version() }, SMAP_VERSION);
}

#[test]
fn a_map_is_built() {
    let (mut builder, mut map) = (smap_builder::default(), smap_map::default());
    let (limits, mut found) = (smap_limits::default(), smap_mapping::default());
    let (mut source, mut wrong) = (9, 9);
    unsafe {
        let opened = smap_builder_open(&mut builder, BASE.as_ptr().cast(), BASE.len(), &limits);
        assert_eq!((opened, builder.is_open), (SMAP_OK, true));
        let url = b"a.ts".as_ptr().cast();
        assert_eq!(smap_builder_source(&mut builder, true, url, 4, &mut source), SMAP_OK);
        let mapping = [0, 7, source, 10, 2, u32::MAX];
        assert_eq!(smap_builder_add(&mut builder, mapping.as_ptr(), 1, &mut wrong), SMAP_OK);
        assert_eq!(smap_builder_finish(&mut builder, &mut map), SMAP_OK);
        assert_eq!(smap_lookup(&mut map, 0, 7, &mut found), SMAP_OK);
        smap_close(&mut map);
    }
    assert_eq!((source, wrong, found.source_line, builder.is_open), (0, 9, 10, false));
}
