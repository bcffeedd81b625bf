"""Mappings strings that are long, have redundant digits or are out of order, as `respell` reads them."""

from answers import Run, no_mappings, respelled, test

FIRST = "refused: line 0 segment 0: "


@test
def a_number_of_a_million_digits_is_read():
    yield from respelled("g" * 1_000_000 + "A", "A")
    yield from no_mappings("g" * 1_000_000, FIRST + "number 1: unfinished")
    yield from no_mappings("/" * 1_000_000 + "A", FIRST + "number 1: too large")


@test
def a_segment_has_255_numbers_and_more():
    for times, back, words in [
        (254, "", "254 numbers"),
        (255, "", "255 numbers"),
        (300, "", "255 numbers"),
        (1_000_000, "", "255 numbers"),
        (253, "!", "number 254: bad character"),
        (300, "!", "number 255: bad character"),
    ]:
        yield from no_mappings("A" * times + back, FIRST + words)


@test
def twenty_million_lines_may_be_empty():
    yield from respelled(";" * 20_000_000, "")
    yield from no_mappings(";" * 20_000_000 + "A", "refused: line 20000000 segment 0: generated line")


@test
def the_last_line_has_the_number_16777215():
    yield from respelled(";" * 16_777_215 + "A", ";" * 16_777_215 + "A")
    yield from no_mappings(";" * 16_777_216 + "A", "refused: line 16777216 segment 0: generated line")


@test
def an_input_of_more_than_268435456_bytes_is_too_long():
    yield Run(("respell",), b";" * 268_435_457, 3, b"", b"smap: input too long\n")


@test
def a_million_columns_that_fall_one_by_one_are_sorted():
    # The first column is 999,999, and each further one is one less.
    yield from respelled("+jh9B" + ",D" * 999_999, "A" + ",C" * 999_999)
    yield from no_mappings("+jh9B" + ",D" * 1_000_000, "refused: line 0 segment 1000000: generated column")


@test
def a_million_segments_at_one_position_keep_their_order():
    text = "AAAA" + ",AACA" * 999_999
    yield from respelled(text + "\n", text)


@test
def running_numbers_stop_at_the_greatest_position():
    for text, words in [
        ("+/////D,C", "segment 1: generated column"),
        ("A+/////DAA,ACAA", "segment 0: source index"),
        ("A8/////DAA,ACAA,ACAA", "segment 1: source index"),
        ("AA+/////DA,AACA", "segment 1: original line"),
        ("AAA+/////D,AAAC", "segment 1: original column"),
        ("AAAA8/////D,AAAAC", "segment 1: name index"),
        ("AAAAD", "segment 0: name index"),
    ]:
        yield from no_mappings(text, "refused: line 0 " + words)
    greatest = "+/////D8/////D+/////D+/////D8/////D"
    yield from respelled(greatest + "\n", greatest)
