"""Tests of the list of sources, the search of everything, and what URLs look like."""

import pages
from browsers import DOWN, ENTER
from common import MARKED, TABLE, equal, follow, make_page, status
from marks import A_JS, B_JS, FIRST, FOUND, FOURTH

LISTED = """
    return [...document.querySelectorAll(`#${arguments[0]} [role=option]`)]
        .map(one => [...one.children].map(part => part.textContent).filter(Boolean));"""


def filters(browser, url):
    """The sources are listed without what all have in common, and those whose names hold a text alone."""
    browser.open(url)
    equal(browser.run("return document.getElementById('sources').textContent"), "a.js")
    browser.run("document.getElementById('sources').click()")
    equal(browser.run("return document.activeElement.id"), "filter")
    equal(browser.run(LISTED, "source-list"), [["a.js", "7 bytes"], ["b.js", "2 bytes"]])
    told = "return document.querySelector('#picker output').textContent"
    equal(browser.run(told), "2 sources in http://h/m/")
    browser.press(*"B.js")
    equal(browser.run(LISTED, "source-list"), [["b.js", "2 bytes"]])
    equal(browser.run(told), "1 of 2 sources in http://h/m/")
    browser.press(ENTER)
    equal(browser.run("return document.getElementById('picker').checkVisibility()"), False)
    equal((browser.run(MARKED)["shown"], status(browser)), (B_JS, FOURTH))
    browser.run("document.getElementById('sources').click()")
    browser.press("?")
    equal((browser.run(LISTED, "source-list"), browser.run(told)), ([], "0 of 2 sources in http://h/m/"))
    browser.press(ENTER)
    equal(browser.run(MARKED)["shown"], B_JS)
    equal(follow(browser, "#generated=1:1"), FIRST)
    equal(browser.run(MARKED)["shown"], A_JS)


def shows_ends(browser, folder):
    """Of a path that is too long the end is seen, in the list and above the source."""
    made, many = pages.Maker(), 60
    for number in range(many):
        made.add("f();", number, 0, 0)
    made.write(folder, "paths.js", sources=[f"{'packages/' * 20}{n % 2}/index{n}.js" for n in range(many)])
    browser.open(make_page(folder, "paths.js.map", "--base", "http://h/m", "paths.js.map"))
    browser.run("document.getElementById('sources').click()")
    names = browser.run(LISTED, "source-list")
    equal([name for name, _ in names[:3]], ["0/index0.js", "1/index1.js", "0/index2.js"])
    # a path of which not even the end has room for the window
    made.write(folder, "paths.js", sources=[f"{n}{'/packages' * 20}/index{n}.js" for n in range(many)])
    browser.open("about:blank")
    browser.open(make_page(folder, "paths.js.map", "--base", "http://h/m", "paths.js.map"))
    browser.run("document.getElementById('sources').click()")
    for place in "#sources .path", "#source-list .path":
        first, last, style = browser.run("""
            const path = document.querySelector(arguments[0]), box = path.getBoundingClientRect();
            const range = document.createRange(), node = path.firstChild.firstChild;
            const inside = at => {
                range.setStart(node, at);
                range.setEnd(node, at + 1);
                const { left, right } = range.getBoundingClientRect();
                return left >= box.left - 1 && right <= box.right + 1;
            };
            return [inside(0), inside(node.data.length - 1), getComputedStyle(path).textOverflow];""", place)
        equal((place, first, last, style), (place, False, True, "ellipsis"))
    # all are listed: the last after so many keys
    browser.press(*[DOWN] * (many - 1), ENTER)
    equal(browser.run(MARKED)["shown"], f"http://h/m/59{'/packages' * 20}/index59.js")


def finds_all(browser, url):
    """One search finds a text in the script, in names and in sources, and counts; each leads to its places."""
    browser.open("about:blank")
    browser.open(url)
    browser.press("f")
    equal(browser.run("return document.activeElement.id"), "everywhere")
    told = "return document.querySelector('#found output').textContent"
    browser.press("f")
    browser.wait("return document.getElementById('found').checkVisibility()")
    equal(browser.run(told), "3 in the script; 0 names; 1 in 1 source; 0 file names")
    equal(browser.run(LISTED, "found-list"), [["simple.js", "3 in the script"], ["a.js", "1 in the source"]])
    browser.press(ENTER)
    equal(browser.run(FOUND, "generated"), "f|f|f")
    equal(browser.run("return document.querySelector('#generated-find output').textContent"), "1 of 3")
    equal(status(browser), FIRST)
    # the second line: the source
    browser.press("f")
    browser.wait("return document.getElementById('found').checkVisibility()")
    browser.press(DOWN, ENTER)
    equal((browser.run(FOUND, "source"), status(browser)), ("f", FIRST))
    # names and what sources are called
    browser.press("f")
    browser.press("n")
    browser.wait("return document.querySelector('#found output').textContent.includes('1 name;')")
    equal(browser.run(told), "1 in the script; 1 name; 0 in 0 sources; 0 file names")
    browser.press(DOWN, ENTER)
    equal((browser.run(FOUND, "generated"), status(browser)), ("ff ", FIRST))
    browser.press("f")
    browser.press(*"b.js")
    browser.wait("return document.querySelector('#found output').textContent.includes('1 file name')")
    browser.press(ENTER)
    equal((browser.run(MARKED)["shown"], status(browser)), (B_JS, FOURTH))


def walks_names(browser, folder):
    """From a name that was found n and N lead through all of its mappings."""
    made = pages.Maker()
    for number in range(4):
        made.add("ab", 0, number, 0, 0)
        made.add(";", 0, number, 2)
    made.write(folder, "names.js", sources=["a.js"], names=["render"], sourcesContent=["value\n" * 4])
    browser.open(make_page(folder, "names.js.map", "--base", "http://h/m", "names.js.map"))
    browser.press("f")
    browser.press(*"REND")
    browser.wait("return document.getElementById('found').checkVisibility()")
    equal(browser.run(LISTED, "found-list"), [["render", "name of 4 mappings"]])
    browser.press(ENTER)
    equal(browser.run(FOUND, "generated"), "ab|ab|ab|ab")
    at = "return document.getElementById('status').textContent.split(' ')[0]"
    equal(browser.run(at), "1:1")
    for key, wanted in ("n", "1:4"), ("n", "1:7"), ("N", "1:4"), ("N", "1:1"), ("N", "1:10"):
        browser.press(key)
        equal(browser.run(at), wanted)


def reads_escapes(browser, folder):
    """Escapes in URLs are shown as what they stand for, unless that is a slash, no character or unseen."""
    names = {"define%20property%20getters": "define property getters", "%C3%A9%E6%BC%A2.js": "é漢.js",
             "a%2Fb.js": "a%2Fb.js", "%FF.js": "%FF.js", "%E2%80%AEx.js": "\ufffdx.js"}
    made = pages.Maker()
    for number in range(len(names)):
        made.add("f();", number, 0, 0)
    made.write(folder, "escapes.js", sources=[f"my%20app/{name}" for name in names])
    url = make_page(folder, "escapes.js.map", "--base", "http://h/m", "escapes.js.map")
    browser.open(f"{url}#bytes")
    equal(sorted(row[0] for row in browser.run(TABLE)), sorted(names.values()))
    titles = browser.run("return [...document.querySelectorAll('#tree > button')].map(one => one.title)")
    equal(sorted(title.split(": ")[0] for title in titles), sorted(names.values()))
    for number, name in enumerate(names.values()):
        said = follow(browser, f"#generated=1:{4 * number + 1}")
        assert said.endswith(f"comes from 1:1 of http://h/m/my app/{name}"), said
        equal(browser.run("return document.getElementById('sources').textContent"), name)
    browser.run("document.getElementById('sources').click()")
    equal([line[0] for line in browser.run(LISTED, "source-list")], list(names.values()))
