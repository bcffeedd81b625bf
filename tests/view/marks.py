"""Tests of what is marked: after clicks, keys, links and searches."""

import pages
from browsers import CONTROL, DOWN, END, ENTER, HOME, LEFT, RIGHT, TAB, UP
from common import CLEAR, MARKED, POINT, as_lookup, equal, follow, lookup, make_page, places, status


def clicks(browser, folder, made, url, count, wraps=True):
    """What is marked after a click is what `smap lookup` answers."""
    browser.open("about:blank")
    browser.open(url)
    if not wraps:
        browser.press("w")
        equal(browser.run("return document.getElementById('wrap').getAttribute('aria-pressed')"), "false")
    wrong = []
    for line, column in places(made, count):
        wanted = lookup(folder, made["name"], line, column)
        follow(browser, f"#generated={line + 1}:{column + 1}")
        linked = as_lookup(browser.run(MARKED)["status"])
        # what is there after the click comes from the click
        browser.run(CLEAR)
        browser.click(*browser.run(POINT, line, column))
        marked = browser.run(MARKED)
        if not (linked == as_lookup(marked["status"]) == wanted and (
                "://" not in wanted or wanted.split(" ")[1].startswith(marked["shown"].split(" ")[0] + ":"))):
            wrong.append((line, column, linked, wanted, marked))
    assert not wrong, f"{len(wrong)} of {count}: {wrong[:2]}"
    return count


# ---- keyboard, links, search

FOCUSED = "return document.activeElement.id || document.activeElement.getAttribute('aria-label') || " \
          "document.activeElement.textContent"


def tab_to(browser, wanted):
    for _ in range(20):
        browser.press(TAB)
        if browser.run(FOCUSED) == wanted:
            return
    raise AssertionError(f"{wanted} isn't reached by Tab")


def simple(folder):
    """A map whose answers are plain: FIRST to FIFTH, below."""
    made = pages.Maker()
    made.add("ff ", 0, 0, 4, 0)
    made.add("g ", 0, 1, 2)
    made.add("un ")
    made.add("h", 1, 1, 2, 1)
    made.end_line()
    made.add("(", None)
    made.add("f)", 0, 0, 4)
    made.write(folder, "simple.js", sources=["a.js", "b.js"], names=["n", "</b>"],
               sourcesContent=["let foo;\n  bar;", "\nx y z"])
    return make_page(folder, "simple.js.map", "--base", "http://h/m", "simple.js.map")


A_JS, B_JS = "http://h/m/a.js", "http://h/m/b.js"
FIRST = f'1:1 to 1:4 comes from 1:5 of {A_JS}, name "n"; place 1 of 2 with this original position'
SECOND = f"1:4 to 1:6 comes from 2:3 of {A_JS}"
THIRD = "1:6 to 1:9 has a mapping without a source"
FOURTH = f'1:9 to 1:10 comes from 2:3 of {B_JS}, name "</b>"'
FIFTH = f"2:2 to 2:4 comes from 1:5 of {A_JS}; place 2 of 2 with this original position"


def keyboard(browser, url):
    """Without a pointer: both panes, both views, the areas and the table."""
    browser.open(url)
    tab_to(browser, "texts-tab")
    tab_to(browser, "generated")
    for key, wanted in ((RIGHT, FIRST), (RIGHT, SECOND), (RIGHT, THIRD), (RIGHT, FOURTH), (RIGHT, FIFTH),
                        (LEFT, FOURTH), (HOME, FIRST), (DOWN, "2:1 has no mapping"), (END, FIFTH),
                        (UP, SECOND), (HOME, FIRST), (ENTER, FIFTH), (ENTER, FIRST)):
        browser.press(key)
        equal(status(browser), wanted)
    browser.press_with(CONTROL, END)
    equal(status(browser), FIFTH)
    browser.press_with(CONTROL, HOME)
    equal(status(browser), FIRST)
    tab_to(browser, "source")
    browser.press(RIGHT)
    equal(status(browser), SECOND)
    browser.press(HOME)
    equal(status(browser), f"2:1 of {A_JS} has no mapping")
    browser.press(UP)
    equal(status(browser), f"1:1 of {A_JS} has no mapping")


def keyboard_bytes(browser, url):
    browser.open(url)
    tab_to(browser, "texts-tab")
    browser.press(RIGHT)
    equal(browser.run(FOCUSED), "bytes-tab")
    tab_to(browser, "a.js: 7 bytes, 53.8%")
    browser.press(RIGHT)
    equal(browser.run(FOCUSED), "b.js: 2 bytes, 15.4%")
    tab_to(browser, "b.js")
    browser.press(ENTER)
    equal(browser.run(FOCUSED), "source")
    equal((browser.run(MARKED)["shown"], status(browser)), (B_JS, FOURTH))


def links(browser, url):
    browser.open("about:blank")
    browser.open(url)
    for link, wanted, marks in (
            ("#generated=1:5", SECOND, ("g ", "bar;")), ("#generated=2:1", "2:1 has no mapping", ("", "")),
            ("#generated=2", "2:1 has no mapping", ("", "")), ("#source=1:1:6", FIRST, ("ff ", "foo;")),
            ("#source=2:2:3", FOURTH, ("h", "y z")),
            ("#source=2:2:2", f"2:2 of {B_JS} has no mapping", ("", "")),
            ("#generated=3:1", "simple.js has 2 lines", None),
            ("#generated=1:99", "Line 1 of simple.js has 9 columns", None),
            ("#generated=0:1", "Lines and columns count from 1", None),
            ("#source=3:1:1", "The map has 2 sources", None), ("#source=1:9:1", f"{A_JS} has 2 lines", None),
            ("#generated=x", '"x" is no position: write line:column, both from 1', None)):
        equal(follow(browser, link), wanted)
        if marks:
            got = browser.run(MARKED)
            equal((link, got["generated"], got["source"]), (link, *marks))
    browser.open("about:blank")
    browser.open(f"{url}#source=2:2:3")
    equal(status(browser), FOURTH)


def search(browser, url):
    browser.open(url)
    for form, text, wanted in (("generated-go", "1:5", SECOND), ("source-go", "1:6", FIRST),
                               ("generated-go", " 2 , 3 ", FIFTH),
                               ("source-go", "7:1", f"{A_JS} has 2 lines"),
                               ("generated-go", "1:x", '"1:x" is no position: write line:column, both from 1')):
        browser.run("""
            const field = document.querySelector(`#${arguments[0]} input`);
            field.value = '';
            field.focus();""", form)
        browser.press(*text, ENTER)
        equal(status(browser), wanted)
    browser.wait("return location.hash === '#generated=2:3'")


def source_clicks(browser, url):
    """A click on a source marks each place of the generated text in turn; a pointer shows both sides."""
    browser.open(f"{url}#source=1")
    span = """
        const span = [...document.querySelectorAll(`#${arguments[0]} .range`)]
            .find(one => one.textContent === arguments[1]);
        const box = span.getBoundingClientRect();
        return [box.left + 4, box.top + box.height / 2];"""
    point = browser.run(span, "source", "foo;")
    for wanted, mark in (FIRST, "ff "), (FIFTH, "f)"), (FIRST, "ff "):
        browser.click(*point)
        equal((status(browser), browser.run(MARKED)["generated"]), (wanted, mark))
    browser.point(*browser.run(span, "generated", "g "))
    hovered = """
        return ['generated', 'source'].map(pane => document.querySelector(`#${pane} .hover`)?.textContent);"""
    equal(browser.run(hovered), ["g ", "bar;"])
    equal(browser.run("return document.getElementById('tip').textContent"), SECOND)
    browser.point(2, 2)
    equal(browser.run(hovered), [None, None])


# ---- without the focus, and the address


def keys_at_once(browser, url):
    """Keys work before anything has the focus."""
    browser.open("about:blank")
    browser.open(url)
    equal(browser.run("return document.activeElement === document.body"), True)
    for wanted in FIRST, SECOND:
        browser.press(RIGHT)
        equal(status(browser), wanted)


def address_follows(browser, url):
    """The address follows keys: the first at once, others soon."""
    browser.open("about:blank")
    browser.open(url)
    tab_to(browser, "generated")
    browser.press(RIGHT)
    equal(browser.run("return location.hash"), "#generated=1:1")
    browser.press(RIGHT)
    browser.wait("return location.hash === '#generated=1:4'")
    tab_to(browser, "source")
    browser.press(HOME)
    browser.wait("return location.hash === '#source=1:2:1'")


def scrolls_nowhere(browser, url):
    """A pane whose lines fit doesn't scroll sideways."""
    browser.open(url)
    widths = browser.run("""
        return [...document.querySelectorAll('.pane')].map(one => [one.scrollWidth, one.clientWidth]);""")
    equal([whole for whole, _ in widths], [seen for _, seen in widths])


# ---- what is found

FOUND = """
    return [...document.querySelectorAll(`#${arguments[0]} .found`)].map(one => one.textContent).join('|');"""


def finds(browser, url):
    """A search counts its places in the whole text, and goes from one to the next and back."""
    browser.open(url)
    count = "return document.querySelector(`#${arguments[0]}-find output`).textContent"
    marked = "return document.getElementById('status').textContent.split(' ')[0]"
    browser.press("/")
    equal(browser.run("return document.activeElement.parentElement.id"), "generated-find")
    browser.press("f")
    equal((browser.run(count, "generated"), browser.run(FOUND, "generated")), ("3", "f|f|f"))
    for keys, place, at in (((ENTER,), "1 of 3", "1:1"), ((ENTER,), "2 of 3", "1:1"), ((ENTER,), "3 of 3", "2:2"),
                            ((ENTER,), "1 of 3", "1:1")):
        browser.press(*keys)
        equal((browser.run(count, "generated"), browser.run(marked)), (place, at))
    tab_to(browser, "generated")
    for key, place in ("n", "2 of 3"), ("N", "1 of 3"), ("N", "3 of 3"):
        browser.press(key)
        equal(browser.run(count, "generated"), place)
    browser.run("""
        const field = document.querySelector('#source-find input');
        field.focus();
        field.value = '';""")
    browser.press(*"O;")
    equal((browser.run(count, "source"), browser.run(FOUND, "source")), ("1", "o;"))
    browser.press(ENTER)
    equal(status(browser), FIRST)
    browser.press("x")
    equal((browser.run(count, "source"), browser.run(FOUND, "source")), ("0", ""))


def ends_at_marks(browser, where):
    """The line between the marks lies in the gap between the panes, and ends at the height of both."""
    ends, heights, gap, panes = browser.run("""
        const boxes = ids => ids.map(one => document.querySelector(one).getBoundingClientRect());
        const { left, top } = document.getElementById('tie').getBoundingClientRect();
        const path = document.querySelector('#tie path'), { x, width } = path.getBBox();
        const ends = path.getAttribute('d').match(/[\\d.-]+/g).map(Number);
        return [[ends[1] + top, ends.at(-1) + top],
                boxes(['#generated .mark', '#source .mark']).map(box => (box.top + box.bottom) / 2),
                [left + x, left + x + width],
                boxes(['#generated', '#source']).map((box, pane) => pane ? box.left : box.right)];""")
    equal((where, [round(end) for end in ends]), (where, [round(height) for height in heights]))
    assert gap[0] >= panes[0] - 0.5 and gap[1] <= panes[1] + 0.5 and gap[1] > gap[0], (where, gap, panes)


def ties(browser, url):
    """A line goes from the row marked in the script to that in the source, and none where one isn't seen."""
    browser.open(f"{url}#generated=1:5")
    browser.wait("return document.querySelector('#tie path').getAttribute('d')")
    ends_at_marks(browser, "1:5")
    follow(browser, "#generated=2:1")
    browser.wait("return document.querySelector('#tie path').getAttribute('d') === ''")
