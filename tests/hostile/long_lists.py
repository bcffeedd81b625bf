"""Maps with long arrays: of sources, contents, names and ignored sources."""

from answers import counted, refused, test, tidied

HERE = "http://h/m/"


def numbered(front, count, back=""):
    """The strings of an array: each is a beginning, a number that counts from 0, and an end."""
    return ",".join(f'"{front}{i}{back}"' for i in range(count))


@test
def a_million_sources_with_one_url_are_one():
    text = '{"version":3,"mappings":"","sources":["a.js"' + ',"x/../a.js"' * 999_999 + "]}"
    yield from tidied(text, '{"mappings":"","names":[],"sources":["http://h/m/a.js"],"version":3}')


@test
def a_million_null_sources_are_one():
    text = '{"version":3,"mappings":"","sources":[null' + ",null" * 999_999 + "]}"
    yield from counted(text, "accepted: 1 sources, 0 names, 0 mappings, 0 lines\n")


@test
def a_hundred_thousand_sources_may_differ_at_their_end():
    front = "a/long/common/front/that/each/of/them/begins/with/so/that/it/is/gone/through/for/nothing/"
    yield from tidied(
        '{"version":3,"mappings":"","sources":[' + numbered(front, 100_000) + "]}",
        '{"mappings":"","names":[],"sources":[' + numbered(HERE + front, 100_000) + '],"version":3}',
    )


@test
def a_hundred_thousand_sources_may_differ_in_content_alone():
    contents = '],"sourcesContent":[' + numbered("content ", 100_000) + "]"
    sources = '"http://h/m/a.js"' + ',"http://h/m/a.js"' * 99_999
    yield from tidied(
        '{"version":3,"mappings":"","sources":["a.js"' + ',"a.js"' * 99_999 + contents + "}",
        '{"mappings":"","names":[],"sources":[' + sources + contents + ',"version":3}',
    )


@test
def one_name_of_a_million_bytes_may_be_used_often():
    name = "n" * 1_000_000
    mappings = "AAAAA" + ",CAAAA" * 99_999
    yield from tidied(
        '{"version":3,"sources":[null],"names":["' + name + '"],"mappings":"' + mappings + '"}',
        '{"mappings":"' + mappings + '","names":["' + name + '"],"sources":[null],"version":3}',
    )


@test
def a_hundred_thousand_names_may_be_one_text():
    # Each mapping uses the next of the listed names, all of which are equal.
    names = '"n"' + ',"n"' * 99_999
    mappings = "AAAAA" + ",CAAAC" * 99_999
    yield from tidied(
        '{"version":3,"sources":[null],"names":[' + names + '],"mappings":"' + mappings + '"}',
        '{"mappings":"AAAAA' + ",CAAAA" * 99_999 + '","names":["n"],"sources":[null],"version":3}',
    )


@test
def a_source_may_have_a_million_bytes():
    # Pieces of a source, and what each becomes in its URL.
    for piece, front, each in [
        ("a", "http://h/m/", "a"),
        ("a/", "http://h/m/", "a/"),
        (" é", "http://h/m/", "%20%C3%A9"),
        ("../", "http://h/", ""),
        ("a/../", "http://h/m/", ""),
        ("./", "http://h/m/", ""),
        ("%2e%2E/", "http://h/", ""),
    ]:
        times = 1_000_000 // len(piece.encode())
        yield from tidied(
            '{"version":3,"mappings":"","sources":["x/../' + piece * times + 'z.js"]}',
            '{"mappings":"","names":[],"sources":["' + front + each * times + 'z.js"],"version":3}',
        )


@test
def a_source_root_of_a_million_bytes_stands_before_each_source():
    root = "r" * 1_000_000
    yield from tidied(
        '{"version":3,"mappings":"","sourceRoot":"' + root + '","sources":[' + numbered("", 100, ".js") + "]}",
        '{"mappings":"","names":[],"sources":[' + numbered(HERE + root + "/", 100, ".js") + '],"version":3}',
    )


@test
def every_source_may_be_ignored():
    # The listed indices fall, and the canonical ones rise.
    falling = "0" + "".join(f",{i}" for i in range(99_999, 0, -1))
    rising = "0" + "".join(f",{i}" for i in range(1, 100_000))
    sources = numbered(HERE, 100_000)
    yield from tidied(
        '{"version":3,"mappings":"","sources":[' + numbered("", 100_000) + '],"ignoreList":[' + falling + "]}",
        '{"ignoreList":[' + rising + '],"mappings":"","names":[],"sources":[' + sources + '],"version":3}',
    )


@test
def a_number_may_be_ignored_a_million_times():
    front = '{"version":3,"mappings":"","sources":[null,"b"],"ignoreList":[1' + ",1" * 999_999
    sources = '"sources":[null,"http://h/m/b"]'
    yield from tidied(front + "]}", '{"ignoreList":[1],"mappings":"","names":[],' + sources + ',"version":3}')
    yield from refused(front + ",2]}", "refused: ignoreList")
