//! The declarations of the C library libsmap, which reads source maps, looks positions up in them, and
//! translates stack traces: what `smap.h` declares, by the same names. `smap.rs`, beside the folder of this
//! crate, is a safe wrapper.
//!
//! The comments of `smap.h` say what a caller has to keep to. No pointer may be null, also where the header
//! allows it in C, not even one to a text of length 0: that of an empty slice isn't. In place of limits that
//! are NULL in C, pass `smap_limits::default()`.
//!
//! `build.rs` finds the library: in the folder that the variable `SMAP_LIB_DIR` names, or by `pkg-config`.
#![allow(non_camel_case_types)]

include!("bindings.rs");
