"""What smap.h declares, for Rust."""

import textwrap

from .c import rows
from .files import WRITTEN, bare, camel, listed, replaced, wrapped
from .getters import bytes_getters, number_getters, text_getters
from .header import TYPES

RUST = {name: in_rust for name, (_, _, in_rust) in TYPES.items()}
# In the wrapper texts and buffers are bytes, and structs have names as in Rust.
RUST_WRAPPER = {**RUST, "char": "u8", "void": "u8"}


def rust_type(kind, types):
    name = types.get(kind.name) or camel(kind.name)
    for is_const in kind.pointers:
        name = f"*{'const' if is_const else 'mut'} {name}"
    return f"[{name}; {kind.length}]" if kind.length else name


def struct_of(struct, types):
    """A struct with what Rust derives of it; it derives no default for pointers and long arrays."""
    name = types.get(struct.name) or camel(struct.name)
    derived = "Debug" if struct.is_handle() else "Clone, Copy, Debug, PartialEq, Eq"
    default = ""
    if struct.is_handle() or any(field.type.length > 32 for field in struct.fields):
        default = f"""
impl Default for {name} {{
    fn default() -> {name} {{
        // zeros are a value of each field
        unsafe {{ std::mem::zeroed() }}
    }}
}}
"""
    else:
        derived += ", Default"
    fields = "".join(f"    pub {field.name}: {rust_type(field.type, types)},\n" for field in struct.fields)
    return f"#[repr(C)]\n#[derive({derived})]\npub struct {name} {{\n{fields}}}\n{default}"


def function_of(function, types):
    parameters = [f"{one.name}: {rust_type(one.type, types)}" for one in function.parameters]
    result = "" if function.result.name == "void" else f" -> {rust_type(function.result, types)}"
    return listed(f"pub fn {function.name}(", parameters, f"){result};", "    ")


def declarations(header, types, constants, extern):
    numbers = "".join(f"pub const {name}: u32 = {number};\n" for name, number in constants)
    structs = "\n".join(struct_of(struct, types) for struct in header.structs)
    functions = "\n".join(function_of(function, types) for function in header.functions)
    return f"{numbers}\n{structs}\n{extern} {{\n{functions}\n}}\n"


def crate(header):
    """the same for Rust, as a crate"""
    types = {**RUST, **{struct.name: struct.name for struct in header.structs}}
    lines = "".join(f"        {macro}!({words});\n" for macro, words in rows(header))
    return f"""// {WRITTEN}.

use std::os::raw::{{c_char, c_void}};

{declarations(header, types, header.version + header.numbers, 'extern "C"')}
#[cfg(test)]
mod tests {{
    use super::*;
    use std::mem::{{size_of, size_of_val}};

    macro_rules! field {{
        ($struct:ident, $name:ident, $at:expr, $size:expr) => {{
            let it = $struct::default();
            let at = &it.$name as *const _ as usize - &it as *const _ as usize;
            assert_eq!((at, size_of_val(&it.$name)), ($at, $size), stringify!($struct.$name));
        }};
    }}

    macro_rules! whole {{
        ($struct:ident, $size:expr) => {{
            assert_eq!(size_of::<$struct>(), $size, stringify!($struct));
        }};
    }}

    #[test]
    fn fields_lie_where_c_has_them() {{
{lines}    }}
}}
"""


def method(getter, start, result, lines):
    words = "".join(f", {one.name}: {rust_type(one.type, RUST)}" for one in getter.which)
    text = wrapped(getter.sentence(start).split(), "    /// ")
    return f"{text}\n    pub fn {getter.method()}(&self{words}) -> {result} {{\n{lines}    }}\n"


def number_method(getter):
    """A number. It is optional where there may be no i-th."""
    kind = RUST[getter.kind.name]
    zero = "false" if kind == "bool" else "0"
    words = ", ".join(["self.0.get()", *(one.name for one in getter.which), "&mut out"])
    call = f"unsafe {{ {getter.name}({words}) }};"
    lines = [f"let mut out = {zero};", call, "out"]
    if getter.which:
        lines = [f"let mut out = {zero};", f"let code = {call}", "(code == OK).then_some(out)"]
        kind = f"Option<{kind}>"
    text = "".join(f"        {line}\n" for line in lines)
    return method(getter, r"OK: \*out (?:is|says) ", kind, text)


def text_method(getter):
    words = ", ".join(["self.0.get()", *(one.name for one in getter.which), "out", "room", "len"])
    call = f"        text_of(|out, room, len| unsafe {{ {getter.name}({words}) }})\n"
    return method(getter, "Copies ", "Option<String>", call)


def bytes_method(getter):
    call = f"written(|out| unsafe {{ {getter.name}(self.0.get(), out) }}).map_err(|_| Error::Memory)"
    return method(getter, "", "Result<Vec<u8>, Error>", f"        {call}\n")


def wrapper(header):
    """the same for the wrapper in Rust, at the end of it; and numbers, texts and bytes of maps, as methods"""
    numbers = [(bare(name), number) for name, number in header.numbers]
    raw = declarations(header, RUST_WRAPPER, numbers, 'unsafe extern "C"')
    start = "// What smap.h declares, to the end of the file"
    methods = [*map(number_method, number_getters(header)), *map(text_method, text_getters(header))]
    getters = "\n".join([*methods, *map(bytes_method, bytes_getters(header))])
    text = f"""{start}: {WRITTEN}.
impl Map {{
    // An answer is none if there is nothing of that kind.

{getters}}}

mod raw {{
{textwrap.indent(raw, '    ')}}}
"""
    return replaced("capi/rust/smap.rs", rf"^{start}(?:.|\n)*\Z", text)
