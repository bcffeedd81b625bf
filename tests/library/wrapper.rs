//! What the tables of tests/rows/ don't ask of the Rust wrapper.
#[path = "../../capi/rust/smap.rs"]
mod smap;

use smap::{Builder, Candidate, Counts, Error, FileKind, Limits, Line, ListedMapping, Map, Mapping, Named};
use smap::{Scripts, SpellError, TraceCounts, TraceOptions};

const BASE: &str = "http://h/m/out.js.map";
const TEXT: &[u8] = br#"{"version":3,"file":"out.js","sources":["a.js","b.js","a.js",null],
    "sourcesContent":["x",null,"x"],"ignoreList":[1],"names":["f","g","f"],"mappings":"AAUEA,IAEA;ACAAE,E"}"#;

/// The map of fields.c, whose numbers all differ within a struct.
const DIFFERENT: &[u8] = br#"{"version":3,"sources":["a.js","b.js","a.js","c.js","d.js","a.js"],
    "ignoreList":[3],"names":["n0","n1","n2","n3","n4","n5","n6"],
    "mappings":";;;;;;oGIwM4SK,w+BDkD9B;;O,iCFtOzP,kDEWYC"}"#;

/// A mapping of that map: line and column, the source's number and index, its line and column, and the name's
/// index; and whether it is ignored.
type Row = (u32, u32, Option<(usize, u32)>, u32, u32, Option<u32>, bool);

const ROWS: [Row; 5] = [
    (6, 100, Some((3, 4)), 200, 300, Some(5), false),
    (6, 1100, Some((2, 3)), 250, 270, None, true),
    (8, 7, None, 0, 0, None, false),
    (8, 40, Some((1, 1)), 20, 21, None, false),
    (8, 90, Some((2, 3)), 31, 33, Some(6), true),
];

fn fields() -> Result<(), Error> {
    let map = Map::open_within(DIFFERENT, BASE, Limits { items: 7, lines: 9 })?;
    for (i, row) in ROWS.into_iter().enumerate() {
        let (line, column, source, source_line, source_column, name, is_ignored) = row;
        let listed_source = source.map(|it| it.1);
        let (source, has_name) = (source.map(|it| it.0), name.is_some());
        let place = Mapping { line, column, source, source_line, source_column, has_name, is_ignored };
        assert_eq!((map.mapping(i), map.lookup(line, column + 1)), (Some(place), Some(place)));
        assert_eq!(map.index_at(line, column + 1), Some(i));
        let listed = ListedMapping { line, column, source: listed_source, source_line, source_column, name };
        assert_eq!(map.listed_mapping(i), Some(listed));
    }
    let Counts { sources, listed_sources, names, mappings, lines, .. } = map.counts();
    assert_eq!((sources, listed_sources, names, mappings, lines), (4, 6, 7, 5, 9));
    assert!(Map::open_within(DIFFERENT, BASE, Limits { items: 9, lines: 7 }).is_err());
    let mut scripts = Scripts::new();
    scripts.add("u", &map)?;
    let trace = b"Error\n@u:7:101\n@u:7:102\n@u:7:1101\n@u:7:103\n@u:7:1102\nend\n";
    assert_eq!(scripts.translate(trace, true)?.1, TraceCounts { lines: 7, translated: 3, dropped: 2 });
    let frame = smap::frame(b"    at f (http://h/m/out.js:70:900)").unwrap();
    assert_eq!((frame.url, frame.line, frame.column), (&b"http://h/m/out.js"[..], 70, 900));
    Ok(())
}

/// A bad character as the third number of the seventh segment of line 5, in section 1.2.
fn fields_of_a_fault() {
    let at = r#"{"offset":{"line":0,"column":0},"map":"#;
    let (open, none) = (r#"{"version":3,"sections":["#, format!(r#"{at}{{"version":3,"mappings":""}}}},"#));
    let bad = r#"{"version":3,"mappings":";;;;;A,A,A,A,A,A,AA!A"}"#;
    let text = format!("{open}{none}{at}{open}{none}{none}{at}{bad}}}]}}}}]}}");
    let Err(Error::Refused(fault)) = Map::open(text.as_bytes(), BASE) else {
        panic!("not refused");
    };
    assert_eq!((fault.kind, fault.place, fault.number), (24, Some((5, 6)), 3));
    assert_eq!(fault.name(), "Character");
    assert_eq!(fault.section, [1, 2]);
    assert_eq!(fault.words, "section 1.2: line 5 segment 6: number 3: bad character");
}

fn sources_and_lists(map: &Map) {
    assert_eq!((map.file().as_deref(), map.content(0).as_deref()), (Some("out.js"), Some("x")));
    assert_eq!((map.is_ignored(0), map.is_ignored(1), map.is_ignored(3)), (Some(false), Some(true), None));
    assert_eq!((map.url(1).as_deref(), map.url(2), map.url(3)), (Some("http://h/m/b.js"), None, None));
    assert_eq!((map.listed_source(2), map.listed_source(3), map.listed_source(4)), (Some(0), Some(2), None));
    assert_eq!((map.listed_name(2).as_deref(), map.listed_name(3)), (Some("f"), None));
    // a string of up to 24 bytes has a block of 24: the base; "out.js", two URLs, a content and three names
    let strings = (648 + 24) + 7 * 24;
    // nine sources, four listed ones and four names fit without growing; four mappings
    let lists = 784 + 4 * 8 + 4 * 24 + 4 * 32;
    // four sources as written, of which three have a text, and no root; a table of two lines
    assert_eq!(map.held(), strings + lists + (4 * 40 + 3 * 24 + 32) + 3 * 8);
    assert_eq!((map.written_source(2).as_deref(), map.written_source(3)), (Some("a.js"), None));
    assert_eq!((map.written_root(2), map.written_source(4)), (None, None));
    let columns: Vec<u32> = map.mappings().map(|m| m.column).collect();
    assert_eq!(columns, [0, 4, 0, 2]);
    let third = ListedMapping {
        line: 1,
        column: 0,
        source: Some(1),
        source_line: 12,
        source_column: 2,
        name: Some(2),
    };
    assert_eq!((map.listed_mapping(2), map.listed_mapping(4)), (Some(third), None));
    assert_eq!(map.listed_mapping(3).and_then(|m| m.source), None);
}

fn traces(map: &Map) -> Result<(), Error> {
    let line = b"    at f (http://h/m/out.js:1:2)";
    let frame = smap::frame(line).unwrap();
    assert_eq!((frame.url, frame.line, frame.column), (&b"http://h/m/out.js"[..], 1, 2));
    assert!(smap::frame(b"Error").is_none());
    assert_eq!(map.translate_line("u", b"@u:2:1", true)?, Line::Dropped);
    let (mut scripts, trace) = (Scripts::new(), b"@u:1:2\n@u:2:1\nx");
    let none = TraceCounts { lines: 3, ..TraceCounts::default() };
    assert_eq!(scripts.translate(trace, true)?, (trace.to_vec(), none));
    scripts.add("u", map)?;
    let counts = TraceCounts { lines: 3, translated: 1, dropped: 1 };
    assert_eq!(scripts.translate(trace, true)?, (b"@http://h/m/a.js:11:3\nx".to_vec(), counts));
    Ok(())
}

/// Each option by itself, and together; and a `bool`, which stands for whether to hide.
fn options(map: &Map) -> Result<(), Error> {
    let anywhere = TraceOptions { anywhere: true, ..TraceOptions::default() };
    let ignore_query = TraceOptions { ignore_query: true, ..TraceOptions::default() };
    let hide = TraceOptions { hide: true, ..TraceOptions::default() };
    let (stamped, asked) = (b"9:00 at f (u:1:2) {", b"@u?v=3:1:2");
    let told = Line::Translated(b"9:00 at f (http://h/m/a.js:11:3) {".to_vec());
    assert_eq!(map.translate_line("u", stamped, false)?, Line::Kept(stamped.to_vec()));
    assert_eq!(map.translate_line("u", stamped, ignore_query)?, Line::Kept(stamped.to_vec()));
    assert_eq!(map.translate_line("u", stamped, anywhere)?, told);
    assert_eq!(map.translate_line("u", asked, anywhere)?, Line::Kept(asked.to_vec()));
    let told = Line::Translated(b"@http://h/m/a.js:11:3".to_vec());
    assert_eq!(map.translate_line("u", asked, ignore_query)?, told);
    assert_eq!(map.translate_line("u", b"@u:2:1", hide)?, Line::Dropped);
    let mut scripts = Scripts::new();
    scripts.add("u", map)?;
    let all = TraceOptions { hide: true, anywhere: true, ignore_query: true, names: false };
    let counts = TraceCounts { lines: 2, translated: 1, dropped: 1 };
    let told = b"9:00 http://h/m/b.js:13:3 {\n".to_vec();
    assert_eq!(scripts.translate(b"@u:2:1\n9:00 u?v=3:2:1 {\n", all)?, (told, counts));
    let names = TraceOptions { names: true, ..TraceOptions::default() };
    let text = br#"{"version":3,"sources":["a.js"],"sourcesContent":["function total() { f(); }"],
        "mappings":"AAAmB"}"#;
    let told = Line::Translated(b"total@http://h/m/a.js:1:20".to_vec());
    assert_eq!(Map::open(text, BASE)?.translate_line("u", b"@u:1:1", names)?, told);
    Ok(())
}

fn errors(map: &Map) -> Result<(), Error> {
    let Err(Error::Refused(fault)) = Map::open(br#"{"version":3,"mappings":"A,,"}"#, BASE) else {
        panic!("not refused");
    };
    assert_eq!((fault.kind, fault.place), (22, Some((0, 1))));
    assert_eq!(fault.words, "line 0 segment 1: empty segment");
    assert_eq!(Map::open(TEXT, "none").err().unwrap().to_string(), "not a URL");
    let within = |bytes| Map::open_within_url_bytes(TEXT, BASE, Limits::default(), bytes);
    assert!(within(45)?.same(map));
    let beyond = within(44).err().unwrap();
    assert!(matches!(beyond, Error::UrlBytes));
    assert_eq!((beyond.code(), beyond.to_string().as_str()), (8, "too many bytes of URLs"));
    assert!(map.same(&map.share()?) && map.same(map));
    assert!(!map.same(&Map::open(br#"{"version":3,"mappings":""}"#, BASE)?));
    Ok(())
}

/// What the rows of chains don't ask.
fn compositions(map: &Map) -> Result<(), Error> {
    let inner = Map::open(br#"{"version":3,"sources":["a.ts","c.ts"],"mappings":";;;;;;;;;;AACA"}"#, BASE)?;
    let made = map.compose(&[(0, &inner)], Limits { items: 4, lines: 0 })?;
    let found = made.lookup(0, 3).unwrap();
    assert_eq!((found.source, found.source_line, made.lookup(0, 4).unwrap().source), (Some(0), 1, None));
    assert_eq!((made.written_source(1).as_deref(), made.written_root(1)), (Some("http://h/m/c.ts"), None));
    let beyond = map.compose(&[(0, &inner)], Limits { items: 3, lines: 0 }).err().unwrap();
    assert_eq!((beyond.code(), beyond.to_string().as_str()), (11, "too many sources or names"));
    assert_eq!(made.used()?.counts().sources, 2);
    assert!(map.compose(&[], Limits::default())?.same(map));
    Ok(())
}

fn spellings() {
    const NONE: u32 = u32::MAX;
    let mut mappings =
        [[1, 4, 1, 0, 0, NONE], [0, 0, 0, 2, 1, 0], [1, 4, 0, 5, 0, NONE], [6, 2, NONE, NONE, NONE, NONE]];
    assert_eq!(smap::spell(&mappings), Ok(b"AAECA;ICFD,ADKA;;;;;E".to_vec()));
    assert_eq!(smap::spell(&[]), Ok(Vec::new()));
    mappings[2][1] = 1 << 31;
    let wrong = smap::spell(&mappings).unwrap_err();
    assert_eq!((wrong, wrong.to_string().as_str()), (SpellError::Wrong(2), "mapping 2: number out of range"));
}

fn builders() -> Result<(), Error> {
    const NONE: u32 = u32::MAX;
    assert_eq!(Builder::new("out.js.map", Limits::default()).err().unwrap().code(), 2);
    let mut builder = Builder::new(BASE, Limits { items: 2, lines: 2 })?;
    assert_eq!((builder.source(Some("a.ts"))?, builder.source(None)?, builder.source(None)?), (0, 1, 1));
    assert_eq!(builder.source(Some("http://h/m/./a.ts"))?, 0);
    assert_eq!(builder.source(Some("http://[")).err().unwrap().code(), 2);
    assert!(matches!(builder.source(Some("b.ts")), Err(Error::TooMany)));
    assert_eq!((builder.name("f")?, builder.name("")?, builder.name("f")?), (0, 1, 0));
    builder.set_file(Some("out.js"))?;
    builder.set_content(0, Some("x"))?;
    builder.set_content(1, Some("y"))?;
    builder.set_content(1, None)?;
    builder.set_ignored(0, true);
    let mut mappings = [[1, 4, 0, 0, 0, NONE], [0, 0, 0, 2, 1, 0], [1, 4, 0, 5, 0, NONE], [2, 0, 0, 0, 0, 0]];
    assert_eq!(builder.add(&mappings), Err(SpellError::Wrong(3)));
    mappings[3] = [1, 5, NONE, NONE, NONE, NONE];
    assert_eq!(builder.add(&mappings), Ok(()));
    let map = std::thread::spawn(move || builder.finish()).join().unwrap()?;
    assert_eq!((map.file().as_deref(), map.url(0).as_deref()), (Some("out.js"), Some("http://h/m/a.ts")));
    assert_eq!((map.url(1), map.content(0).as_deref(), map.content(1)), (None, Some("x"), None));
    assert_eq!((map.is_ignored(0), map.listed_name(1).as_deref()), (Some(true), Some("")));
    assert_eq!(map.canonical_mappings()?, b"AAECA;IAFD,AAKA,C");
    Ok(())
}

fn names_of_maps() {
    let named = |text: &[u8]| smap::named_map(b"http://h/m/", b"a.js", text).unwrap();
    let rows: [(&[u8], Named); 8] = [
        (b"", Named::Unsaid),
        (b"f()", Named::Nothing),
        (b"//# sourceMappingURL=data:;base64,e30", Named::Inline(b"{}".to_vec())),
        (b"//# sourceMappingURL=b%20c.map", Named::File(b"b c.map".to_vec())),
        (b"//# sourceMappingURL=data:x", Named::Garbled),
        (b"//# sourceMappingURL=", Named::NoName),
        (b"//# sourceMappingURL=http://[", Named::NotUrl),
        (b"//# sourceMappingURL=../a.map", Named::Leaves),
    ];
    for (text, wanted) in rows {
        assert_eq!(named(text), wanted);
    }
    let next = |text: &[u8], tried| smap::script_map(b"http://h/m/", b"a.js", text, tried).unwrap();
    let beside = Some(Candidate::File(b"a.js.map".to_vec()));
    let inline = b"//# sourceMappingURL=data:;base64,e30";
    assert_eq!(next(inline, 0), Some(Candidate::Map(b"{}".to_vec())));
    assert_eq!((next(inline, 1), next(inline, 2)), (beside.clone(), None));
    assert_eq!(next(b"//# sourceMappingURL=b%20c.map", 0), Some(Candidate::File(b"b c.map".to_vec())));
    assert_eq!((next(b"f()", 0), next(b"f()", 1)), (beside, None));
    let kinds = [&b"a.cjs"[..], b"a.css", b"a.map", b"a"].map(smap::file_kind);
    assert_eq!(kinds, [FileKind::Script, FileKind::StyleSheet, FileKind::Map, FileKind::Other]);
}

fn main() -> Result<(), Error> {
    let map = Map::open(TEXT, BASE)?;
    sources_and_lists(&map);
    traces(&map)?;
    options(&map)?;
    errors(&map)?;
    compositions(&map)?;
    fields()?;
    fields_of_a_fault();
    spellings();
    builders()?;
    names_of_maps();
    let other = map.share()?;
    let found = std::thread::spawn(move || other.lookup(0, 5)).join().unwrap();
    assert_eq!(found, map.lookup(0, 5));
    let (major, minor, patch) = smap::version();
    let numbers = include_str!("../../VERSION").trim_end().trim_end_matches("-dev");
    assert_eq!(format!("{major}.{minor}.{patch}"), numbers);
    Ok(())
}
