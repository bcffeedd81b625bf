"""What C, C++ and their tests have of smap.h, and the names of the shared object."""

import re
import textwrap

from .files import WIDTH, WRITTEN, Refused, bare, replaced, replaced_in, text_of, wrapped
from .getters import text_getters
from .header import TYPES, Named, Type
from .kinds import with_kinds

# ---- the header's own inline functions


def below(start, words, end):
    """Words between brackets, on lines that begin below the first of them."""
    lines = wrapped([*(f"{word}," for word in words[:-1]), words[-1] + end], " " * len(start))
    return start + lines[len(start) :]


def prototype(start, function, name, parameters):
    words = []
    for one in parameters:
        const = "const " if one.type.pointers == (True,) else ""
        words.append(f"{const}{one.type.name} {'*' * len(one.type.pointers)}{one.name}")
    return below(f"{start}{function.result.name} {name}(", words, ")")


def text_function(function):
    """NAME_text, which takes texts without the lengths that follow them."""
    parameters, words = [], []
    for one, before in zip(function.parameters, [None, *function.parameters]):
        if before and before.is_text():
            words.append(f"smap_length_({before.name})")
        else:
            parameters.append(Named(one.name, Type("char", (True,))) if one.is_text() else one)
            words.append(one.name)
    start = prototype("static inline ", function, f"{function.name}_text", parameters)
    return f"{start}\n{{\n{below(f'    return {function.name}(', words, ');')}\n}}\n"


def inline_function(function, header):
    """NAME, which calls NAME_strict with something in place of each NULL that it allows."""
    structs = {struct.name: struct for struct in header.structs}
    lines, words = [], []
    names = {one.name for one in function.parameters}
    for name, kind in function.parameters:
        is_buffer = kind.name in ("char", "void")
        is_handle = kind.name in structs and structs[kind.name].is_handle() and f"{name}_count" not in names
        if not kind.pointers or is_handle or name == "out" and not is_buffer:
            words.append(name)
        elif is_buffer and kind.pointers[0]:
            words.append(f"{name} ? {name} : smap_no_text_")
        else:
            words.append(f"{name} ? {name} : &no_{name}")
            fields = structs[kind.name].fields if kind.name in structs else [name]
            zeros = ", ".join("0" for _ in fields) if kind.pointers[0] or f"{name}_count" in names else ""
            is_const = "const " if kind.pointers[0] else ""
            start = f"{is_const}{kind.name}" if zeros else "char" if is_buffer else kind.name
            lines.append(f"    {start} no_{name}" + (f" = {{{zeros}}};" if zeros else ";"))
    lines.append(below(f"    return {function.name}_strict(", words, ");"))
    start = prototype("static inline ", function, function.name, function.parameters)
    return "\n".join([start, "{", *lines, "}"]) + "\n"


def inline_functions(header):
    """its kinds of errors, and its inline functions"""
    marked = [one for one in header.functions if one.is_inline]
    texts = [text_function(one) for one in marked if any(word.is_text() for word in one.parameters)]
    strict = [prototype("", one, f"{one.name}_strict", one.parameters) + ";\n" for one in marked]
    nulls = [inline_function(one, header) for one in marked]
    text = f"""\
#ifndef SMAP_NO_INLINE

/* ---- texts that end with a NUL (tools/write-bindings writes this part, out of the declarations above)
 *
 * NAME_text is NAME for such texts, without their lengths. NULL stands for an empty one. */

static inline size_t smap_length_(const char *text)
{{
    size_t len = 0;
    while (text && text[len]) len++;
    return len;
}}

{chr(10).join(texts)}
/* ---- the functions that are marked SMAP_INLINE
 *
 * NAME_strict is the library's function NAME, which takes no NULL. It has this second name since nothing in C
 * calls a function of a library from an inline function that has its name. */

{"".join(strict)}
static const char smap_no_text_[1] = {{0}};

{chr(10).join(nulls)}
#endif

#ifdef __cplusplus
"""
    pattern = r"^#ifndef SMAP_NO_INLINE\n(?:.|\n)*^#ifdef __cplusplus\n"
    return replaced_in(with_kinds(), "capi/smap.h", pattern, text)


# ---- C++


def cpp_text(getter):
    """A function that makes a string of a text of a map."""
    words = "".join(f"{one.type.name} {one.name}, " for one in getter.which)
    call = ", ".join(["map", "out", getter.name, *(one.name for one in getter.which)])
    said = f"/* {getter.sentence('Copies ')}\u00a0*/"  # which isn't left alone on a line
    lines = "\n".join(textwrap.wrap(said, WIDTH, subsequent_indent=" * ")).replace("\u00a0", " ")
    return lines + f"""
inline uint32_t {bare(getter.name)}(Map &map, {words}std::string &out)
{{
    return copied_of({call});
}}

"""


def cpp_texts(header):
    """the texts of maps for C++, as strings"""
    start, end = f"/* ---- texts of maps: {WRITTEN} */\n\n", "/* ---- scripts and logs */\n"
    text = "".join(map(cpp_text, text_getters(header)))
    pattern = rf"^{re.escape(start)}(?:.|\n)*?^{re.escape(end)}"
    return replaced("capi/cpp/smap.hpp", pattern, f"{start}{text}{end}")


# ---- where fields lie


def bytes_of(kind):
    """How many bytes a type has, or each of an array: it lies at a multiple of them."""
    return 8 if kind.pointers else TYPES[kind.name][0]


def rows(header):
    """Where each field lies, with its bytes, and those of each struct, by the rules of 64-bit systems."""
    for struct in header.structs:
        at = 0
        for name, kind in struct.fields:
            at += -at % bytes_of(kind)
            size = bytes_of(kind) * (kind.length or 1)
            yield "field", f"{struct.name}, {name}, {at}, {size}"
            at += size
        yield "whole", f"{struct.name}, {at + -at % max(bytes_of(field.type) for field in struct.fields)}"


def fields_table(header):
    """where each field of each struct lies"""
    return f"/* {WRITTEN}. */\n" + "".join(f"{macro.upper()}({words}),\n" for macro, words in rows(header))


# ---- the names that the shared object has


def is_released(version):
    """Whether there was a release of this version, whose first is its number and a 0."""
    number, before, _ = text_of("VERSION").strip().partition("-dev")
    first, last = ([int(part) for part in text.split(".")] for text in (f"{version}.0", number))
    return first < last or first == last and not before


def version_script(header):
    """the names that are new, in the last version"""
    path = "capi/libsmap.versions"
    names = sorted(one.name for one in header.functions)
    names += sorted(f"{one.name}_strict" for one in header.functions if one.is_inline)
    earlier, version = re.search(r"((?:.|\n)*)^SMAP_([0-9.]+) \{$", text_of(path), re.M).groups()
    had = re.findall(r"^    (smap_\w+);$", earlier, re.M)
    gone = ", ".join(sorted(set(had) - set(names)))
    if gone:
        raise Refused(f"{path} has, in a version that was released, what smap.h doesn't declare: {gone}")
    new = "".join(f"    {name};\n" for name in names if name not in had)
    start = f"SMAP_{version} {{\nglobal:\n"
    text = replaced(path, rf"^{re.escape(start)}[^}}]*", start + new)
    if text != text_of(path) and is_released(version):
        raise Refused(f"{path} ends with version {version}, which was released: begin the next one there")
    return text
