"""Tests of lines that are longer than a pane is wide, wrapped and not."""

import re

import pages
from browsers import ENTER
from common import equal, follow, lines_of, make_page, status
from marks import ends_at_marks, tab_to

FRAMES = "return new Promise(done => requestAnimationFrame(() => requestAnimationFrame(() => done(true))))"
PRESSED = "return document.getElementById('wrap').getAttribute('aria-pressed')"
LABELS = "return [...document.querySelectorAll('#generated .number')].map(one => one.textContent)"

# Whether the mark of each pane is seen, with the number of its row.
SEEN = """
    return ['generated', 'source'].map(id => {
        const pane = document.getElementById(id), mark = pane.querySelector('.mark');
        if (!mark) return null;
        const area = pane.getBoundingClientRect(), box = mark.getBoundingClientRect();
        const number = mark.parentElement.firstChild.getBoundingClientRect();
        return number.left >= area.left && number.right < area.right && box.left >= number.right - 1 &&
            box.left < area.left + pane.clientWidth && box.top >= area.top - 1 &&
            box.bottom <= area.top + pane.clientHeight + 1;
    });"""


def sees_marks(browser, where):
    browser.run(FRAMES)
    equal((where, browser.run(SEEN)), (where, [True, True]))


def has_button(browser, url):
    """A button and a key turn it on and off, and the button says which."""
    browser.open("about:blank")
    browser.open(url)
    browser.press("b")
    rows = len(browser.run(LABELS))
    wrapped = browser.run(LABELS)
    assert any(label.startswith(":") for label in wrapped), wrapped
    equal(browser.run(PRESSED), "true")
    browser.press("w")
    equal((browser.run(PRESSED), browser.run(LABELS)), ("false", [str(line + 1) for line in range(rows)]))
    browser.press("W")
    equal((browser.run(PRESSED), browser.run(LABELS)), ("true", wrapped))
    browser.open("about:blank")
    browser.open(url)
    browser.run("document.getElementById('break').click()")
    tab_to(browser, "wrap")
    equal(browser.run("return document.activeElement.textContent"), "Wrap lines")
    for pressed in "false", "true":
        browser.press(ENTER)
        equal((browser.run(PRESSED), any(label.startswith(":") for label in browser.run(LABELS))),
              (pressed, pressed == "true"))
    # a field takes the letter
    browser.run("document.querySelector('#generated-find input').focus()")
    browser.press("w")
    equal(browser.run(PRESSED), "true")
    browser.run("document.getElementById('bytes-tab').click()")
    equal(browser.run("return document.getElementById('wrap').checkVisibility()"), False)


def shows_all(browser, made, url):
    """A line that isn't wrapped is seen whole, part by part, when its pane is scrolled sideways."""
    browser.open("about:blank")
    browser.open(url)
    browser.press("b", "w")
    line = max(lines_of(made["text"]), key=len)
    number = lines_of(made["text"]).index(line)
    assert pages.units(line) > 1000
    text = b""
    step = browser.run("return document.getElementById('generated').clientWidth") - 100
    for left in range(0, 100000, step):
        browser.run("document.getElementById('generated').scrollLeft = arguments[0]", left)
        browser.run(FRAMES)
        column, part, at = browser.run("""
            const pane = document.getElementById('generated');
            const row = pane.querySelector(`.row[data-line="${arguments[0]}"]`);
            const texts = [...row.children].slice(1).map(one => one.textContent);
            return [Number(row.dataset.column), texts.join(''), pane.scrollLeft];""", number)
        assert 2 * column <= len(text), f"nothing is drawn before column {column + 1}"
        text = text[:2 * column] + part.encode("utf-16-le")
        if at < left - 1:
            break
    equal(text.decode("utf-16-le"), line)


def keeps_marks(browser, made, url):
    """What is marked is seen, and the line between the marks ends beside both, wherever lines become rows."""
    # places of the two long lines, by the last mapping at each, whose source has contents
    owners = {(line, column): (*numbers, -1)[0] for line, column, *numbers in made["made"] if line in (3, 20)}
    mapped = [place for place, owner in owners.items() if 0 <= owner < len(pages.SOURCES) - 1]
    assert len(mapped) > 500, len(mapped)
    for line, column in mapped[::len(mapped) // 6]:
        place = f"{line + 1}:{column + 1}"
        browser.open("about:blank")
        browser.open(f"{url}#generated={place}")
        said = status(browser)
        for mode, pressed in ("wrapped", "true"), ("not wrapped", "false"), ("wrapped again", "true"):
            equal(browser.run(PRESSED), pressed)
            sees_marks(browser, (place, mode))
            ends_at_marks(browser, (place, mode))
            browser.press("w")
        equal(status(browser), said)
        # and after a link, where lines aren't wrapped
        follow(browser, "#generated=4:1")
        follow(browser, f"#generated={place}")
        sees_marks(browser, (place, "by a link"))


def goes_to_found(browser, made, url):
    """A search has the same places in lines that aren't wrapped, and each is scrolled to."""
    browser.open("about:blank")
    browser.open(url)
    browser.press("b", "w")
    equal(browser.run(PRESSED), "false")
    browser.press("/")
    browser.press(*"render p")
    count = "return document.querySelector('#generated-find output').textContent"
    found = [(number, pages.units(line[:each.start()])) for number, line in enumerate(lines_of(made["text"]))
             for each in re.finditer("render p", line)]
    assert len(found) > 5, found
    # whether what was found begins, and is seen, at this line and column
    seen = """
        const [line, column] = arguments, pane = document.getElementById('generated');
        const row = pane.querySelector(`.row[data-line="${line}"]`), area = pane.getBoundingClientRect();
        let at = Number(row.dataset.column);
        for (const span of [...row.children].slice(1)) {
            const box = span.getBoundingClientRect();
            if (at === column && span.classList.contains('found')) {
                return box.left >= row.firstChild.getBoundingClientRect().right - 1 && box.left < area.right &&
                    box.top >= area.top && box.bottom < area.bottom;
            }
            at += span.textContent.length;
        }
        return null;"""
    for number, place in enumerate(found, 1):
        browser.press(ENTER)
        equal(browser.run(count), f"{number} of {len(found)}")
        browser.run(FRAMES)
        equal((place, browser.run(seen, *place)), (place, True))


def cuts_longest(browser, folder):
    """A line of more than 100,000 columns is a row for each 100,000; only what is seen of them is drawn."""
    made = pages.Maker()
    for number in range(25000):
        made.add(f"{number:09};", 0, number, 0)
    made.end_line()
    made.add("end", 0, 3, 1)
    made.write(folder, "long.js", sources=["a.js"], sourcesContent=["line\n" * 25000])
    url = make_page(folder, "long.js.map", "--base", "http://h/m", "long.js.map")
    browser.open("about:blank")
    browser.open(url)
    browser.press("b", "w")
    equal(browser.run(LABELS), ["1", ":100001", ":200001", "2"])
    for column in 234561, 99991, 100001, 250000, 1:
        begin = (column - 1) // 10 * 10
        said = follow(browser, f"#generated=1:{column}")
        equal(said, f"1:{begin + 1} to 1:{begin + 11} comes from {begin // 10 + 1}:1 of http://h/m/a.js")
        sees_marks(browser, column)
        equal(browser.run("return document.querySelector('#generated .mark').textContent"),
              f"{begin // 10:09};")
    assert browser.run("return document.querySelectorAll('*').length") < 1000
    # no line goes to a mark that is behind the numbers
    path = "return document.querySelector('#tie path').getAttribute('d')"
    follow(browser, "#generated=1:50001")
    browser.wait(path)
    browser.run("""
        const pane = document.getElementById('generated'), mark = pane.querySelector('.mark');
        const number = mark.parentElement.firstChild.getBoundingClientRect();
        pane.scrollLeft += mark.getBoundingClientRect().right - number.right + 2;""")
    browser.wait(f"{path} === ''")


def breaks_lines(browser, folder):
    """A minified line is broken after `;`, `{` and `}` for the eye alone: positions stay the same."""
    made = pages.Maker()
    pieces = ["function f(a){", "return a+1}", "for(;;){", "g()}", "if(x)", "y();", "z=[{},{}];"] * 12
    for number, piece in enumerate(pieces):
        made.add(piece, 0, number, 0)
    made.end_line()
    made.add("short(){;}", 0, 0, 1)
    made.write(folder, "broken.js", sources=["a.js"], sourcesContent=["line\n" * 100])
    url = make_page(folder, "broken.js.map", "--base", "http://h/m", "broken.js.map")
    browser.open("about:blank")
    browser.open(url)
    rows = """
        return [...document.querySelectorAll('#generated .row')].map(row =>
            [Number(row.dataset.line), Number(row.dataset.column),
             [...row.children].slice(1).map(one => one.textContent).join('')]);"""
    broken = browser.run(rows)
    equal([text for _, _, text in broken[:7]],
          ["function f(a){", "return a+1}", "for(;;){", "g()}", "if(x)y();", "z=[{},", "{}];"])
    line = "".join(pieces)
    for number, column, text in broken:
        equal(text, ([line, "short(){;}"][number])[column:column + len(text)])
    # what is marked by a click, a link and keys is what it is in whole lines
    place = line.index("g()}", 200)
    said = follow(browser, f"#generated=1:{place + 1}")
    assert said.startswith(f"1:{place + 1} to 1:{place + 5} comes from "), said
    equal(browser.run("return document.querySelector('#generated .mark').textContent"), "g()}")
    browser.press("b")
    equal(browser.run("return document.getElementById('break').getAttribute('aria-pressed')"), "false")
    assert len(browser.run(rows)) < len(broken)
    equal((status(browser), browser.run(SEEN)[0]), (said, True))
    browser.press("b")
    equal((browser.run(rows)[0], browser.run(SEEN)[0]), (broken[0], True))


def stands_in_middle(browser, folder):
    """What a link marks stands in the middle of both panes, with lines around it."""
    made = pages.Maker()
    for number in range(2000):
        made.add("call(", 0, number, 0)
        made.add("1);", 0, number, 5)
    made.write(folder, "middle.js", sources=["a.js"], sourcesContent=["call(one);\n" * 2000])
    url = make_page(folder, "middle.js.map", "--base", "http://h/m", "middle.js.map")
    middle = """
        return ['generated', 'source'].map(id => {
            const pane = document.getElementById(id).getBoundingClientRect();
            const { top, bottom } = document.querySelector(`#${id} .mark`).getBoundingClientRect();
            return ((top + bottom) / 2 - pane.top) / pane.height;
        });"""
    for number in 900, 1500, 700:
        browser.open("about:blank")
        browser.open(f"{url}#generated=1:{8 * number + 1}")
        places = browser.run(middle)
        assert all(0.4 < place < 0.6 for place in places), (number, places)
    # and a minified line has a row for each statement around it
    texts = browser.run("""
        const row = document.querySelector('#generated .mark').parentElement;
        return [row.previousSibling, row, row.nextSibling].map(one => one.lastChild.textContent);""")
    equal(texts, ["1);"] * 3)
