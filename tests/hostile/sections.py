"""Index maps with sections at large offsets, or with many sections."""

from answers import EMPTY_TIDY, refused, test, tidied

# The last line that a mapping may have, and the greatest line and column of an offset.
LAST_LINE = 16_777_215
GREATEST = 2_147_483_647

SECTIONS = 10_000


def section(line, column, mappings):
    """A section at an offset, its map with these mappings and nothing else."""
    offset = f'{{"offset":{{"line":{line},"column":{column}}}'
    return offset + ',"map":{"version":3,"mappings":"' + mappings + '"}}'


def index_map(sections):
    return '{"version":3,"sections":[' + ",".join(section(*values) for values in sections) + "]}"


def tidy(mappings):
    return '{"mappings":"' + mappings + '","names":[],"sources":[],"version":3}'


@test
def a_section_without_mappings_may_stand_anywhere():
    yield from tidied(index_map([(GREATEST, GREATEST, "")]), EMPTY_TIDY)
    for line, column in (GREATEST + 1, 0), (0, GREATEST + 1):
        yield from refused(index_map([(line, column, "")]), "refused: section 0: offset")


@test
def a_section_may_reach_the_last_line_and_the_greatest_column():
    yield from tidied(index_map([(LAST_LINE, GREATEST, "A")]), tidy(";" * LAST_LINE + "+/////D"))
    for line, mappings, words in [
        (LAST_LINE, "C", "line 0 segment 0: generated column"),
        (LAST_LINE, "A;A", "line 1 segment 0: generated line"),
        (LAST_LINE + 1, "A", "line 0 segment 0: generated line"),
        (GREATEST, "A", "line 0 segment 0: generated line"),
        (GREATEST, ";;A", "line 2 segment 0: generated line"),
    ]:
        yield from refused(index_map([(line, GREATEST, mappings)]), "refused: section 0: " + words)


@test
def ten_thousand_sections_are_read():
    # How far apart the sections of a map are, the mappings of each, and those of the map.
    for lines, columns, mappings, first, further in [
        (1, 0, "A", "A", ";A"),
        (0, 1, "A", "A", ",C"),
        (0, 0, "A", "A", ",A"),
        (0, 0, "", "", ""),
        # Each section ends where the next begins.
        (0, 1, "A,C", "A,C", ",A,C"),
    ]:
        text = index_map((i * lines, i * columns, mappings) for i in range(SECTIONS))
        yield from tidied(text, tidy(first + further * (SECTIONS - 1)))


@test
def ten_thousand_sections_may_stand_at_the_greatest_position():
    yield from tidied(index_map([(GREATEST, GREATEST, "")] * SECTIONS), EMPTY_TIDY)


@test
def the_last_of_ten_thousand_sections_may_be_at_fault():
    for line, mappings, words in [
        (9_999, "!", "line 0 segment 0: number 1: bad character"),
        (9_997, "A", "order"),
    ]:
        sections = [(i, 0, "A") for i in range(SECTIONS - 1)] + [(line, 0, mappings)]
        yield from refused(index_map(sections), "refused: section 9999: " + words)


@test
def a_mapping_of_the_first_section_may_lie_after_the_last():
    # The first section's mapping is at column 10,000, and the last of the others is at 9,999.
    text = index_map([(0, 0, "gxT"), (0, 9_999, "")])
    yield from refused(text, "refused: section 1: overlap")
