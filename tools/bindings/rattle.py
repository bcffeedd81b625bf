"""What the library itself states of smap.h."""

import re

from .files import WIDTH, camel, replaced_in, text_of, wrapped

ORDER = "crates/smap_c/specs/Order.antt"


def orders(header):
    """the fields of structs, in their order"""
    text = text_of(ORDER)
    for struct in (one for one in header.structs if not one.is_handle()):
        start = rf"^(\w+Order = \((\w) : Smap{camel(struct.name)}\) → \w+\.the_type\.as_values \w)"
        pattern = rf"{start}\s+≡(?:.|\n)*?then tt$"
        found = re.search(pattern, text, re.M) or [""] * 3
        fields = [f"{found[2]}.{field.name}" for field in struct.fields]
        words = [f"≡ {fields[0]}", *(f"then {field}" for field in [*fields[1:], "tt"])]
        line = " ".join([found[1], *words])
        lines = line if len(line) <= WIDTH else f"{found[1]}\n{wrapped(words, '    ')}"
        text = replaced_in(text, ORDER, pattern, lines)
    return text
