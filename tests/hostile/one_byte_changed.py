"""Every byte, from 0 to 255, in place of each of the 75 bytes of a small map: 19,200 texts, and what `tidy`
writes for each. The answers are found twice: in a table, and by the model in one_byte.py, which computes each
from the definition of the format."""

import one_byte
from answers import Equal, run, test

MAP = b'{"version":3,"sources":["a.js"],"names":["x","y"],"mappings":"AAAAC,CAACD"}'

# What `tidy` writes for the map as it is, in the form of the table.
UNCHANGED = 'AAAAA,CAACC "y","x" http://h/m/a.js'

SETS = {
    # Bytes that a JSON string may hold unescaped: ASCII except control characters, `"` and `\`.
    "TEXT": " !#$%&'()*+,-./0123456789:;<=>?@ABCDEFGHIJKLMNOPQRSTUVWXYZ[]^_`"
    "abcdefghijklmnopqrstuvwxyz{|}~\x7f",
    "SPACE": " ",
    # Bytes that are percent-encoded in a path.
    "ESCAPED": " <>^`{}\x7f",
    # Neither digits of numbers nor separators.
    "NO_DIGIT": " !#$%&'()*-.:<=>?@[]^_`{|}~\x7f",
    # The digits that end a number, and those that continue it.
    "ENDS": "ABCDEFGHIJKLMNOPQRSTUVWXYZabcdef",
    "GOES_ON": "ghijklmnopqrstuvwxyz0123456789+/",
    # Digits of numbers that aren't negative, where `A` may follow, and those of negative ones.
    "RISES": "ACEGIKMOQSUWYace",
    "RISES_ON": "gikmoqsuwy02468+",
    "FALLS": "BDFHJLNPRTVXZbdfhjlnprtvxz13579/",
}

# The first and the last of some places, bytes that are put there, each in turn, and the answer: a fault, or a
# record by its mappings, names and source, in which `*` stands for the byte and `~` for its two hexadecimal
# digits. Of the rows that fit the last counts. Where none fits, the text is not JSON.
TABLE = r"""2 | 8 | TEXT | refused: version
3 | 3 | \ | refused: version
7 | 7 | \ | refused: version
11 | 11 | 012456789 | refused: version
14 | 20 | TEXT | refused: line 0 segment 0: source index
16 | 16 | \ | refused: line 0 segment 0: source index
25 | 25 | TEXT | AAAAA,CAACC "y","x" http://h/m/*.js
25 | 25 | ESCAPED | AAAAA,CAACC "y","x" http://h/m/%~.js
25 | 25 | #? | AAAAA,CAACC "y","x" http://h/m/out.js.map*.js
25 | 25 | SPACE | AAAAA,CAACC "y","x" http://h/m/.js
25 | 25 | / | AAAAA,CAACC "y","x" http://h/.js
26 | 26 | TEXT | AAAAA,CAACC "y","x" http://h/m/a*js
26 | 26 | ESCAPED | AAAAA,CAACC "y","x" http://h/m/a%~js
26 | 26 | : | AAAAA,CAACC "y","x" a:js
27 | 27 | TEXT | AAAAA,CAACC "y","x" http://h/m/a.*s
27 | 27 | ESCAPED | AAAAA,CAACC "y","x" http://h/m/a.%~s
27 | 27 | : | AAAAA,CAACC "y","x" a.:s
28 | 28 | TEXT | AAAAA,CAACC "y","x" http://h/m/a.j*
28 | 28 | ESCAPED | AAAAA,CAACC "y","x" http://h/m/a.j%~
28 | 28 | SPACE | AAAAA,CAACC "y","x" http://h/m/a.j
28 | 28 | : | AAAAA,CAACC "y","x" a.j:
33 | 37 | TEXT | refused: line 0 segment 0: name index
42 | 42 | TEXT | AAAAA,CAACC "y","*" http://h/m/a.js
42 | 42 | y | AAAAA,CAACA "y" http://h/m/a.js
46 | 46 | TEXT | AAAAA,CAACC "*","x" http://h/m/a.js
46 | 46 | x | AAAAA,CAACA "x" http://h/m/a.js
51 | 58 | TEXT | refused: mappings
55 | 55 | \ | refused: mappings
62 | 62 | NO_DIGIT | refused: line 0 segment 0: number 1: bad character
62 | 62 | RISES_ON | refused: line 0 segment 1: name index
62 | 62 | FALLS | refused: line 0 segment 0: generated column
62 | 62 | Bh | refused: line 0 segment 0: number 1: negative zero
62 | 62 | , | refused: line 0 segment 0: empty segment
62 | 62 | ; | refused: line 1 segment 1: name index
62 | 62 | RISES | *AAAA,CAACC "y","x" http://h/m/a.js
63 | 63 | NO_DIGIT | refused: line 0 segment 0: number 2: bad character
63 | 63 | ENDS | refused: line 0 segment 0: source index
63 | 63 | GOES_ON | refused: line 0 segment 0: source index
63 | 63 | Bh | refused: line 0 segment 0: number 2: negative zero
63 | 63 | g | refused: line 0 segment 1: name index
63 | 63 | , | refused: line 0 segment 1: 3 numbers
63 | 63 | ; | refused: line 1 segment 0: 3 numbers
64 | 64 | NO_DIGIT | refused: line 0 segment 0: number 3: bad character
64 | 64 | RISES_ON | refused: line 0 segment 1: name index
64 | 64 | FALLS | refused: line 0 segment 0: original line
64 | 64 | Bh | refused: line 0 segment 0: number 3: negative zero
64 | 64 | ,; | refused: line 0 segment 0: 2 numbers
64 | 64 | RISES | AA*AA,CAACC "y","x" http://h/m/a.js
65 | 65 | NO_DIGIT | refused: line 0 segment 0: number 4: bad character
65 | 65 | RISES_ON | refused: line 0 segment 1: name index
65 | 65 | FALLS | refused: line 0 segment 0: original column
65 | 65 | B | refused: line 0 segment 0: number 4: negative zero
65 | 65 | ,; | refused: line 0 segment 0: 3 numbers
65 | 65 | RISES | AAA*A,CAACC "y","x" http://h/m/a.js
66 | 66 | NO_DIGIT | refused: line 0 segment 0: number 5: bad character
66 | 66 | GOES_ON | refused: line 0 segment 0: number 5: unfinished
66 | 66 | ENDS | refused: line 0 segment 0: name index
66 | 66 | A | refused: line 0 segment 1: name index
66 | 66 | B | refused: line 0 segment 0: number 5: negative zero
66 | 66 | , | refused: line 0 segment 1: empty segment
66 | 66 | ; | refused: line 1 segment 0: empty segment
67 | 67 | NO_DIGIT | refused: line 0 segment 0: number 6: bad character
67 | 67 | GOES_ON | refused: line 0 segment 0: 10 numbers
67 | 67 | ENDS | refused: line 0 segment 0: 11 numbers
67 | 67 | B | refused: line 0 segment 0: number 6: negative zero
67 | 67 | ; | AAAAA;CAACC "y","x" http://h/m/a.js
68 | 68 | NO_DIGIT | refused: line 0 segment 1: number 1: bad character
68 | 68 | RISES_ON | refused: line 0 segment 1: original column
68 | 68 | FALLS | refused: line 0 segment 1: generated column
68 | 68 | Bh | refused: line 0 segment 1: number 1: negative zero
68 | 68 | ,; | refused: line 0 segment 1: empty segment
68 | 68 | RISES | AAAAA,*AACC "y","x" http://h/m/a.js
69 | 69 | NO_DIGIT | refused: line 0 segment 1: number 2: bad character
69 | 69 | ENDS | refused: line 0 segment 1: source index
69 | 69 | GOES_ON | refused: line 0 segment 1: source index
69 | 69 | Bh | refused: line 0 segment 1: number 2: negative zero
69 | 69 | g | refused: line 0 segment 1: original column
69 | 69 | , | refused: line 0 segment 2: 3 numbers
69 | 69 | ; | refused: line 1 segment 0: 3 numbers
70 | 70 | NO_DIGIT | refused: line 0 segment 1: number 3: bad character
70 | 70 | RISES_ON | refused: line 0 segment 1: original column
70 | 70 | FALLS | refused: line 0 segment 1: original line
70 | 70 | B | refused: line 0 segment 1: number 3: negative zero
70 | 70 | ,; | refused: line 0 segment 1: 2 numbers
70 | 70 | RISES | AAAAA,CA*CC "y","x" http://h/m/a.js
71 | 71 | NO_DIGIT | refused: line 0 segment 1: number 4: bad character
71 | 71 | FALLS | refused: line 0 segment 1: original column
71 | 71 | B | refused: line 0 segment 1: number 4: negative zero
71 | 71 | ,; | refused: line 0 segment 1: 3 numbers
71 | 71 | RISES | AAAAA,CAA*C "y","x" http://h/m/a.js
71 | 71 | RISES_ON | AAAAA,CAA*D "y" http://h/m/a.js
72 | 72 | NO_DIGIT | refused: line 0 segment 1: number 5: bad character
72 | 72 | GOES_ON | refused: line 0 segment 1: number 5: unfinished
72 | 72 | ENDS | refused: line 0 segment 1: name index
72 | 72 | B | refused: line 0 segment 1: number 5: negative zero
72 | 72 | , | refused: line 0 segment 2: empty segment
72 | 72 | ; | AAAAA,CAAC "y" http://h/m/a.js
72 | 72 | A | AAAAA,CAACA "y" http://h/m/a.js"""


def rows_of(table):
    """The rows of the table: first place, last place, bytes, answer."""
    for row in table.split("\n"):
        first, last, characters, answer = row.split(" | ")
        yield int(first), int(last), SETS.get(characters, characters), answer


ROWS = list(rows_of(TABLE))


def listed(place, byte):
    """What the table says of a byte at a place, as what `tidy` writes."""
    character = chr(byte)
    answer = "refused: not json"
    for first, last, characters, row in ROWS:
        if first <= place <= last and character in characters:
            answer = row.replace("~", f"{byte:02X}").replace("*", character)
    if byte == MAP[place]:
        answer = UNCHANGED
    if answer.startswith("refused: "):
        return answer + "\n"
    mappings, rest = answer.split(" ", 1)
    names, source = (rest[:3], rest[4:]) if rest[3] == " " else (rest[:7], rest[8:])
    return f'{{"mappings":"{mappings}","names":[{names}],"sources":["{source}"],"version":3}}'


def changed():
    """Each place and byte, with the text that has the byte there."""
    for place in range(len(MAP)):
        for byte in range(256):
            yield place, byte, MAP[:place] + bytes([byte]) + MAP[place + 1 :]


@test
def each_byte_in_each_place_is_answered():
    for place, byte, text in changed():
        answer = listed(place, byte)
        yield run("tidy", text, 1 if answer.startswith("refused: ") else 0, answer)


@test
def a_model_of_the_format_gives_the_same_answers():
    for place, byte, text in changed():
        yield Equal(f"byte {byte} at {place}", one_byte.tidied(text), listed(place, byte))
