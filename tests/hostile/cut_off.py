"""Maps that end too early."""

from answers import counted, refused, run, test

# One map for each kind of member, and an index map.
MAPS = [
    '{"version":3,"sources":["a.js"],"names":["x","y"],"mappings":"AAAAC,CAACD"}',
    '{"version":3,"sections":[{"offset":{"line":0,"column":0},'
    '"map":{"version":3,"sources":["a.js"],"mappings":"AAAA"}},'
    '{"offset":{"line":0,"column":10},'
    '"map":{"version":3,"sources":["a.js","b.js"],"names":["n"],"mappings":"AAAAA;CCCC"}}]}',
    '{"version":3,"file":null,"sections":null,"sources":[null],"sourcesContent":["t"],"mappings":"AAAA"}',
    '{"version":3,"sources":["a.js","b.js"],"x_google_ignoreList":[1,1],"mappings":""}',
    '{"version":3,"sources":["a.js","b.js"],"ignoreList":[1],"mappings":""}',
    '{"version":3,"sources":["a.js","./a.js","b.js"],"mappings":"AAAA,CCAA,CCAA"}',
    '{"version":3,"sources":["a.js","a.js"],"sourcesContent":["t"],"mappings":""}',
    '{"version":3,"sources":["a.js"],"names":["p","q"],"mappings":"EAAAA,DAACC"}',
    r'{"version":3,"file":"x\/y\u0009\u000b","mappings":""}',
]

# A map that is refused even if it is complete.
REFUSED = '{"version":3,"sources":["a.js","b.js"],"ignoreList":[2],"mappings":""}'


@test
def a_map_cut_after_any_smaller_number_of_bytes_is_not_json():
    for text in [*MAPS, REFUSED]:
        for length in range(len(text)):
            yield from refused(text[:length], "refused: not json")
    for text in MAPS:
        yield from counted(text, "accepted: ")
    yield from refused(REFUSED, "refused: ignoreList")


@test
def a_first_line_cut_off_is_no_prefix():
    text = ')]}\'\n{"version":3,"mappings":""}'
    for length in range(len(text)):
        line = "refused: prefix without line feed" if length == 4 else "refused: not json"
        yield run("check", text[:length], 1, line + "\n")
