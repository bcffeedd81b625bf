"""What the package for Node has of smap.h."""

import re

from .files import TOP, WRITTEN, Refused, bare, camel, listed, replaced, replaced_in, small, wrapped
from .getters import Getter, bytes_getters, number_getters, struct_getters, text_getters
from .header import Type

TYPES, GETTERS = "capi/node/index.d.ts", "capi/node/native/getters.c"

# ---- the types


def kinds(header):
    names = [camel(name[11:]) for name, _ in header.numbers if name.startswith("SMAP_FAULT_")]
    return "export type SmapErrorKind =\n" + wrapped([f"| '{name}'" for name in names], "  ") + ";"


def counts(header):
    lines = []
    for name, _ in header.struct("smap_counts").fields:
        said = header.comments.get(f"smap_counts.{name}")
        lines += [f"  /** {said[0].upper()}{said[1:]}. */\n"] if said else []
        lines += [f"  readonly {small(name)}: number;\n"]
    return f"export interface Counts {{\n{''.join(lines)}}}"


def types(header):
    """the names of kinds of errors, and the counts of a map"""
    text = replaced(TYPES, r"^export type SmapErrorKind =[^;]*;", kinds(header))
    return replaced_in(text, TYPES, r"^export interface Counts \{[^}]*\}", counts(header))


# ---- the addon


def answer(getter, header):
    """The lines that make a value of JavaScript of what the library gave."""
    struct = header.struct(getter.kind.name)
    if struct:
        numbers = [f'{{"{small(one.name)}", out.{one.name}}}' for one in struct.fields]
        lines = listed("const named_number numbers[] = {", numbers, "};", "    ")
        return f"{lines}\n    return object_out(env, numbers, sizeof numbers / sizeof *numbers);"
    is_flag = getter.kind.name == "bool"
    make = "napi_get_boolean(env, out, " if is_flag else "napi_create_int64(env, (int64_t)out, "
    return f"    napi_value value;\n    CALL({make}&value));\n    return value;"


def getter_call(getter, header):
    words = "".join(f", {one.name}" for one in getter.which)
    index = "".join(f"    uint32_t {one.name};\n" for one in getter.which)
    asked = "".join(f"    CALL(napi_get_value_uint32(env, w[1], &{one.name}));\n" for one in getter.which)
    return f"""\
/* {small(getter.name)}(map{words}) */
static napi_value do_{bare(getter.name)}(napi_env env, napi_callback_info info)
{{
    {getter.kind.name} out;
{index}    MAP_AND({1 + len(getter.which)});
{asked}    uint32_t code = {getter.name}(&boxed->map{words}, &out);
    if (code != SMAP_OK) return throw_code(env, code, NULL);
{answer(getter, header)}
}}
"""


def bytes_call(getter):
    return f"""\
/* {small(getter.name)}(map, asBuffer) */
static napi_value do_{bare(getter.name)}(napi_env env, napi_callback_info info)
{{
    return written(env, info, {getter.name});
}}
"""


def text_getter(getter):
    """A row of the table of texts, and what it needs: all functions there take an index."""
    name = bare(getter.name).upper()
    if getter.which:
        return "", f'    {{"{name}", {getter.name}}},\n'
    function = f"""\
static uint32_t get_{bare(getter.name)}(smap_map *map, size_t i, char *out, size_t room, size_t *len)
{{
    (void)i;
    return {getter.name}(map, out, room, len);
}}

"""
    return function, f'    {{"{name}", get_{bare(getter.name)}}},\n'


def texts(header):
    """The table of texts, by whose names index.js asks for them."""
    functions, rows = zip(*map(text_getter, filter(Getter.is_indexed, text_getters(header))))
    end = "    {NULL, NULL},\n"
    return f"{''.join(functions)}const text_getter text_getters[] = {{\n{''.join(rows)}{end}}};\n"


def asked_for():
    """What the JavaScript of the package calls of its addon, but for what is there by hand."""
    texts = {path.name: path.read_text() for path in (TOP / GETTERS).parent.glob("*.c")}
    texts.pop("getters.c", None)
    by_hand = re.findall(r'^    \{"(\w+)", do_\w+\},$', "".join(texts.values()), re.M)
    scripts = "".join(path.read_text() for path in (TOP / "capi/node").glob("*.js"))
    return sorted({*re.findall(r"\bnative\.(\w+)\(", scripts)} - {*by_hand})


def getters(header):
    """the getters that index.js calls"""
    known = {one.name: getter_call(one, header) for one in (*number_getters(header), *struct_getters(header))}
    known.update((one.name, bytes_call(one)) for one in bytes_getters(header))
    names = {small(name): name for name in known}
    asked = asked_for()
    for name in asked:
        if name not in names:
            raise Refused(f"capi/node calls native.{name}, which no file of native/ has, and is no getter")
    calls = "\n".join(known[names[name]] for name in asked)
    rows = "".join(f'    {{"{name}", do_{bare(names[name])}}},\n' for name in asked)
    return f"""\
/* {WRITTEN}: the getters that index.js calls, and texts of maps. */
#include "smap_node.h"

{calls}
const call getter_calls[] = {{
{rows}    {{NULL, NULL}},
}};

{texts(header)}"""
