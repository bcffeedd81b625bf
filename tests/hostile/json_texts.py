"""Inputs that are nearly JSON, or nested, or long in one value."""

from answers import EMPTY, EMPTY_TIDY, counted, refused, test, tidied

NOT_JSON = "refused: not json"
VERSION = "refused: version"


@test
def arrays_nest_127_deep():
    yield from refused("[" * 127 + "]" * 127, "refused: not an object")
    yield from refused("[" * 128 + "]" * 128, NOT_JSON)
    yield from refused("[" * 1_000_000, NOT_JSON)


@test
def members_nest_127_deep_with_the_map_around_them():
    for front, line in [
        ('{"version":3,"sections":', "refused: section 0: not an object"),
        ('{"version":3,"sources":', "refused: sources"),
        ('{"version":3,"names":', "refused: names"),
        ('{"version":3,"ignored":', "refused: mappings"),
    ]:
        yield from refused(front + "[" * 126 + "]" * 126 + "}", line)
        yield from refused(front + "[" * 127 + "]" * 127 + "}", NOT_JSON)


@test
def an_ignored_member_may_nest_as_deep():
    front = '{"version":3,"mappings":"","x":'
    yield from tidied(front + "[" * 126 + "]" * 126 + "}", EMPTY_TIDY)
    yield from tidied(front + '{"a":' * 126 + "0" + "}" * 127, EMPTY_TIDY)
    yield from refused(front + '{"a":' * 127 + "0" + "}" * 128, NOT_JSON)


@test
def bytes_that_are_no_text_are_not_json():
    for text in [
        # A byte order mark, half a surrogate pair, and bytes that aren't UTF-8.
        b'\xef\xbb\xbf{"version":3,"mappings":""}',
        rb'{"version":3,"file":"\ud800","mappings":""}',
        rb'{"version":3,"file":"\udc00\ud800","mappings":""}',
        b'{"version":3,"file":"\xff","mappings":""}',
        b'{"version":3,"file":"\xc0\x80","mappings":""}',
        b'{"version":3,"file":"\xed\xa0\x80","mappings":""}',
        b'{"version":3,"file":"\xf4\x90\x80\x80","mappings":""}',
        b'{"version":3,"file":"\xe2\x82","mappings":""}',
        b'{"version":3,"file":"\xc3","mappings":""}',
        b'{"version":3,"mappings":""}\xff',
        # A control character in a string, and two values.
        b'{"version":3,"file":"\x00","mappings":""}',
        b'{"version":3,"mappings":""}{}',
        b'{"version":3,"mappings":""}\x00',
        b')]}\n{"version":3,"mappings":""}',
        b')]}"\n{"version":3,"mappings":""}',
        b")]}'\n",
        b' )]}\'\n{"version":3,"mappings":""}',
        b')]}\'\n)]}\'\n{"version":3,"mappings":""}',
    ]:
        yield from refused(text, NOT_JSON)


@test
def a_first_line_ends_in_a_line_feed():
    for text in b")]}'\r", b")]}'\xff":
        yield from refused(text, "refused: prefix without line feed")


@test
def a_first_line_may_hold_anything():
    yield from tidied(b')]}\'\r\n{"version":3,"mappings":""}', EMPTY_TIDY)
    yield from tidied(b')]}\'\xff\x00\r\n{"version":3,"mappings":""}', EMPTY_TIDY)
    yield from tidied(")]}'" + "x" * 10_000_000 + "\n" + EMPTY, EMPTY_TIDY)


@test
def the_version_is_the_whole_number_3():
    for number, line in [
        ("-0", VERSION),
        ("0", VERSION),
        ("-3", VERSION),
        ("3.0", VERSION),
        ("3e0", VERSION),
        ("30e-1", VERSION),
        ("1e-400", VERSION),
        ("18446744073709551619", VERSION),
        ("[3]", VERSION),
        ("true", VERSION),
        ("null", VERSION),
        ("1e400", NOT_JSON),
        ("-1e400", NOT_JSON),
        ("03", NOT_JSON),
        ("+3", NOT_JSON),
        ("3.", NOT_JSON),
        ("NaN", NOT_JSON),
        ("Infinity", NOT_JSON),
    ]:
        yield from refused('{"mappings":"","version":' + number + "}", line)


@test
def a_json_number_may_have_a_million_digits():
    # A fraction may have any length; a number that overflows a double isn't read by `serde_json`.
    yield from tidied('{"version":3,"mappings":"","x":0.' + "5" * 1_000_000 + "}", EMPTY_TIDY)
    yield from refused('{"mappings":"","version":3.' + "0" * 1_000_000 + "}", VERSION)
    for sign in "", "-":
        yield from refused('{"mappings":"","version":' + sign + "3" * 1_000_000 + "}", NOT_JSON)
    yield from refused('{"mappings":"","version":3e' + "9" * 1_000_000 + "}", NOT_JSON)
    yield from refused('{"mappings":"","version":3e-' + "9" * 1_000_000 + "}", VERSION)


@test
def of_a_million_equal_members_the_last_counts():
    back = '"version":3,"mappings":""}'
    yield from tidied("{" + '"version":2,' * 1_000_000 + back, EMPTY_TIDY)
    yield from refused("{" + '"version":3,' * 1_000_000 + '"mappings":"","version":2}', VERSION)
    line = "accepted: 0 sources, 0 names, 0 mappings, 0 lines\n"
    yield from counted("{" + '"x":[],' * 1_000_000 + back, line)


# Names with every escape that JSON has, and how each is written.
ESCAPES = [
    (r"\u0000\u0001\u0002\u0003\u0004\u0005\u0006\u0007", r"\u0000\u0001\u0002\u0003\u0004\u0005\u0006\u0007"),
    (r"\u0008\u0009\u000A\u000b\u000C\u000d\u000E\u000f", r"\b\t\n\u000b\f\r\u000e\u000f"),
    (r"\u0010\u0011\u0012\u0013\u0014\u0015\u0016\u0017", r"\u0010\u0011\u0012\u0013\u0014\u0015\u0016\u0017"),
    (r"\u0018\u0019\u001A\u001B\u001C\u001D\u001E\u001F", r"\u0018\u0019\u001a\u001b\u001c\u001d\u001e\u001f"),
    (r"\b\t\n\f\r", r"\b\t\n\f\r"),
    (r"\"\\\/", r"\"\\/"),
    (r"\u0022\u005C\u002f", r"\"\\/"),
    (r"\u0041\u007f", "A\x7f"),
    (r"\u0080\u07FF\u0800\uffff", "\u0080\u07ff\u0800\uffff"),
    (r"\ud83d\ude00\uD800\uDC00\udbff\udfff", "\U0001f600\U00010000\U0010ffff"),
    (r"\u2028\u2029\ufeff", "\u2028\u2029\ufeff"),
    ("", ""),
]


@test
def names_are_written_with_the_fewest_escapes():
    for escaped, written in ESCAPES:
        output = '{"mappings":"AAAAA","names":["' + written + '"],"sources":[null],"version":3}'
        text = '{"version":3,"sources":[null],"mappings":"AAAAA","names":["' + escaped + '"]}'
        yield from tidied(text, output)
        yield from tidied(output, output)
