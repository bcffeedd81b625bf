#!/usr/bin/env python3
"""check.py FORM FILE: reads a report of smap-maps lint as other programs do.

What is wrong is said in a line each, and the status is 1. Otherwise the report is summed up in lines that
don't depend on its form: for each file with findings, by name, how many errors, warnings and notes it has,
and in the end how many findings there are. So these lines are the same for all forms of one report: of a name
that JSON or a URI gives back as it is, control characters are shown as the other forms write them. No form has
such a character but line feeds.

gnu     each line is FILE:LINE:COLUMN: LEVEL: MESSAGE [RULE], or FILE: LEVEL: MESSAGE [RULE]
github  each line is a workflow command, and its escapes are GitHub's
json    each line is an object with these six members, by Python's reader
sarif   the file is held to sarif.json beside this one, by jsonschema (Debian: python3-jsonschema), and each
        result's ruleId and ruleIndex to the list of rules
junit   the file is read by junitparser (Debian: python3-junitparser), and its counts are held to its cases"""

import collections
import json
import pathlib
import re
import sys
import unicodedata
import urllib.parse
import xml.dom.minidom

LEVELS = ["error", "warning", "note"]
Counts = dict[str, collections.Counter]


def sarif(text: str, wrong: list[str]) -> Counts:
    import jsonschema

    schema = json.loads(pathlib.Path(__file__).with_name("sarif.json").read_text(encoding="utf-8"))
    log = json.loads(text)
    for fault in jsonschema.Draft7Validator(schema).iter_errors(log):
        wrong.append(f"{fault.json_path}: {fault.message}")
    if wrong:
        return {}
    if len(log["runs"]) != 1:
        wrong.append(f"{len(log['runs'])} runs")
    found: Counts = collections.defaultdict(collections.Counter)
    for run in log["runs"]:
        rules = [rule["id"] for rule in run["tool"]["driver"]["rules"]]
        if len(set(rules)) < len(rules):
            wrong.append("two rules of one name")
        for result in run["results"]:
            index = result["ruleIndex"]
            if index >= len(rules) or index >= 0 and rules[index] != result["ruleId"]:
                wrong.append(f"rule {index} is not {result['ruleId']}")
            for location in result["locations"]:
                uri = location["physicalLocation"]["artifactLocation"]["uri"]
                path = urllib.parse.unquote(uri.removeprefix("file://"), errors="strict")
                found[path][result["level"]] += 1
    return found


PLACE = r"(?::[1-9][0-9]*:[1-9][0-9]*)?"
GNU = re.compile(rf"(?P<file>.+?){PLACE}: (?P<level>error|warning|note): .* \[[^\]]+\]")


def gnu(text: str, wrong: list[str]) -> Counts:
    found: Counts = collections.defaultdict(collections.Counter)
    for line in text.splitlines():
        if match := GNU.fullmatch(line):
            found[match["file"]][match["level"]] += 1
        else:
            wrong.append(f"a line of another form: {line}")
    return found


# A command, its properties without the characters that part them, and its message.
GITHUB = re.compile(r"::(?P<command>error|warning|notice) (?P<properties>(?:[a-z]+=[^:,]*,?)+)::(?P<message>.*)")


def github(text: str, wrong: list[str]) -> Counts:
    found: Counts = collections.defaultdict(collections.Counter)
    for line in text.removesuffix("\n").split("\n") if text else []:
        match = GITHUB.fullmatch(line)
        properties = dict(part.split("=", 1) for part in match["properties"].split(",")) if match else {}
        names = list(properties)
        if names not in (["file", "title"], ["file", "line", "col", "title"]):
            wrong.append(f"a line of another form: {line}")
            continue
        if not all(properties[name].isdecimal() for name in names if name in ("line", "col")):
            wrong.append(f"a place that is none: {line}")
        path = urllib.parse.unquote(properties["file"], errors="strict")
        found[path]["note" if match["command"] == "notice" else match["command"]] += 1
    return found


MEMBERS = ["column", "file", "level", "line", "message", "rule"]


def json_lines(text: str, wrong: list[str]) -> Counts:
    found: Counts = collections.defaultdict(collections.Counter)
    for line in text.removesuffix("\n").split("\n") if text else []:
        finding = json.loads(line)
        place = finding.get("line"), finding.get("column")
        if sorted(finding) != MEMBERS or finding["level"] not in LEVELS:
            wrong.append(f"other members: {line}")
        elif place != (None, None) and not all(isinstance(number, int) and number > 0 for number in place):
            wrong.append(f"a place that is none: {line}")
        else:
            found[finding["file"]][finding["level"]] += 1
    return found


# A line of a test case: its place, if it has one, and its level.
LINE = re.compile(r"(?:[1-9][0-9]*:[1-9][0-9]*: )?(error|warning|note): .* \[[^\]]+\]")


def lines_of(text: str | None, levels: list[str], wrong: list[str]) -> collections.Counter:
    counts: collections.Counter = collections.Counter()
    for line in (text or "").splitlines():
        match = LINE.fullmatch(line)
        if match is None or match[1] not in levels:
            wrong.append(f"a line that is no finding: {line}")
        else:
            counts[match[1]] += 1
    return counts


def words(counts: collections.Counter) -> str:
    return ", ".join(
        f"{counts[level]} {level}{'' if counts[level] == 1 else 's'}" for level in LEVELS if counts[level]
    )


def junit(text: str, wrong: list[str]) -> Counts:
    import junitparser

    xml.dom.minidom.parseString(text.encode("utf-8"))  # well-formed, and in UTF-8
    suites = list(junitparser.JUnitXml.fromstring(text.encode("utf-8")))
    if len(suites) != 1:
        wrong.append(f"{len(suites)} suites")
    found: Counts = collections.defaultdict(collections.Counter)
    for suite in suites:
        cases = list(suite)
        failing = 0
        for case in cases:
            if len(case.result) > 1:
                wrong.append(f"{case.name}: {len(case.result)} results")
            for result in case.result:
                failing += isinstance(result, junitparser.Failure)
                counts = lines_of(result.text, LEVELS[:2], wrong)
                if result.message != words(counts):
                    wrong.append(f"{case.name}: {result.message}, and its lines say {words(counts)}")
                found[case.name].update(counts)
            if case.system_out:
                found[case.name].update(lines_of(case.system_out, LEVELS[2:], wrong))
        names = [case.name for case in cases]
        if len(set(names)) < len(names):
            wrong.append("two test cases of one name")
        for name, says, is_so in [("tests", suite.tests, len(cases)), ("failures", suite.failures, failing)]:
            if says != is_so:
                wrong.append(f"{name}: {says}, and there are {is_so}")
    return found


# Unicode's Bidi_Control (PropList.txt), and the separators of lines and paragraphs.
TURNING = {0x061C, 0x200E, 0x200F, 0x2028, 0x2029, *range(0x202A, 0x202F), *range(0x2066, 0x206A)}


def is_control(c: str) -> bool:
    return unicodedata.category(c) == "Cc" or ord(c) in TURNING


def shown(name: str) -> str:
    return "".join(f"\\u{ord(c):04x}" if is_control(c) else c for c in name)


READERS = {"gnu": gnu, "github": github, "json": json_lines, "sarif": sarif, "junit": junit}


def main() -> int:
    if len(sys.argv) != 3 or sys.argv[1] not in READERS:
        print("usage: check.py gnu|github|json|sarif|junit FILE", file=sys.stderr)
        return 2
    wrong: list[str] = []
    text = pathlib.Path(sys.argv[2]).read_bytes().decode("utf-8")
    if text and not text.endswith("\n"):
        wrong.append("no line feed at the end")
    for c in sorted({c for c in text if is_control(c)} - {"\n"}):
        wrong.append(f"it has the character {shown(c)}")
    found = READERS[sys.argv[1]](text, wrong)
    for line in wrong:
        print(line)
    if wrong:
        return 1
    for path, counts in sorted(found.items()):
        print(f"{shown(path)}: {words(counts)}")
    print(f"{sum(sum(counts.values()) for counts in found.values())} findings")
    return 0


if __name__ == "__main__":
    sys.exit(main())
