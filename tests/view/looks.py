"""Tests of what is seen: contrasts and colours, sizes of the window, paper, and a large map."""

import json
import time

import pages
from common import TABLE, equal, follow, make_page


# ---- what it looks like

CONTRASTS = """
    const channel = value => (value /= 255) <= 0.04045 ? value / 12.92 : ((value + 0.055) / 1.055) ** 2.4;
    const light = color => color.match(/[\\d.]+/g).slice(0, 3).map(Number).map(channel)
        .reduce((sum, value, index) => sum + value * [0.2126, 0.7152, 0.0722][index], 0);
    const ground = element => {
        for (; element; element = element.parentElement) {
            const { backgroundColor, backgroundImage } = getComputedStyle(element);
            const stripes = backgroundImage.match(/rgb[^)]*\\)/g);
            if (stripes) return stripes;
            if (!/rgba\\(.*, 0\\)/.test(backgroundColor)) return [backgroundColor];
        }
    };
    const found = {};
    for (const element of document.querySelectorAll('body *')) {
        const hasText = [...element.childNodes].some(one => one.nodeType === 3 && one.data.trim());
        if (!hasText || !element.checkVisibility()) continue;
        for (const color of ground(element)) {
            const both = [light(getComputedStyle(element).color), light(color)].sort((a, b) => b - a);
            const name = `${element.tagName} ${element.className || element.id}`;
            found[name] = Math.min(found[name] ?? 99, (both[0] + 0.05) / (both[1] + 0.05));
        }
    }
    return [found, getComputedStyle(document.body).backgroundColor];"""


def contrasts(browser, url, refused, growth):
    """Each text has a contrast of at least 4.5 to 1 to what is behind it, in both schemes, in each colour, also
    of what grew or shrank."""
    grounds = set()
    for scheme in "light", "dark":
        browser.scheme(scheme)
        kinds = set()
        for page in f"{url}#generated=4:5", f"{url}#bytes", refused, growth:
            browser.open("about:blank")
            browser.open(page)
            browser.run("""
                const [span] = document.querySelectorAll('#generated .range');
                for (let number = 0; span && number < 16; number++) {
                    const copy = span.parentElement.appendChild(span.cloneNode(true));
                    copy.className = `range c${number}`;
                }
                document.getElementById('sources').click();""")
            found, ground = browser.run(CONTRASTS)
            grounds.add(ground)
            kinds |= set(found)
            low = {name: round(value, 2) for name, value in found.items() if value < 4.5}
            assert not low, f"{scheme}: {low}"
        for kind in "none", "ignored", *(f"c{number}" for number in range(16)):
            assert f"SPAN range {kind}" in kinds, kind
    browser.scheme("light")
    equal(len(grounds), 2)


def colours_are_calm(browser, url):
    """No colour of a source is much stronger than the page, in the dark as in the light."""
    for scheme in "light", "dark":
        browser.scheme(scheme)
        browser.open("about:blank")
        browser.open(url)
        colours = browser.run("""
            return Array.from({ length: 16 }, (_, number) => {
                const one = document.body.appendChild(document.createElement('i'));
                one.className = `c${number}`;
                return getComputedStyle(one).backgroundColor.match(/[0-9]+/g).map(Number);
            });""")
        assert len({tuple(colour) for colour in colours}) == 16, colours
        strong = [colour for colour in colours if max(colour) - min(colour) > 75]
        assert not strong, (scheme, strong)
    browser.scheme("light")


KINDS = """
    return [...new Set([...document.querySelectorAll(arguments[0])]
        .flatMap(one => [...one.classList]).filter(name => /^(c[0-9]+|ignored)$/.test(name)))];"""


def colours_mean_sources(browser, folder):
    """A source has one colour, in both texts, as an area and in lists, and the next one another."""
    made, count = pages.Maker(), 20
    for number in range(count):
        for row in range(3):
            made.add("f(1);", number, row, 0)
            made.add("g(2);", number, row, 5)
    made.write(folder, "hues.js", sources=[f"{'a' if n < 15 else 'b'}/{n}.js" for n in range(count)],
               sourcesContent=["let a = 1;\n" * 3] * count)
    browser.open(make_page(folder, "hues.js.map", "--base", "http://h/m", "hues.js.map"))
    # not broken, so that all of the script is seen
    browser.press("b")
    spans = browser.run("""
        return [...document.querySelectorAll('#generated .range')].flatMap(one =>
            Array(one.textContent.length).fill(one.className.replace(/range /, '')));""")
    colours = [spans[30 * number:30 * number + 30] for number in range(count)]
    for number, colour in enumerate(colours):
        assert len(set(colour)) == 1, (number, colour)
        assert not number or colour[0] != colours[number - 1][0], number
    for number in 0, 7, 16:
        browser.run("location.hash = arguments[0]", f"#source={number + 1}")
        browser.wait("return document.getElementById('sources').textContent.endsWith(arguments[0])",
                     f"/{number}.js")
        equal(browser.run(KINDS, "#source .range"), [colours[number][0]])
        equal(browser.run(KINDS, "#sources .swatch"), [colours[number][0]])
    browser.run("document.getElementById('bytes-tab').click()")
    for number in 0, 7, 16:
        equal(browser.run(KINDS, f"#tree > [title*='/{number}.js: ']"), [colours[number][0]])
    # of a folder with much in it each source has a hue of its own; folders with less have one
    hues = [{int(colour[0][1:]) % 8 for colour in colours[begin:end]} for begin, end in ((0, 15), (15, 20))]
    assert len(hues[0]) >= 6, hues


def prints_table(browser, folder, url):
    """On paper there is a table of all sources, and no text, area or control."""
    browser.open("about:blank")
    browser.open(url)
    browser.run("dispatchEvent(new Event('beforeprint'))")
    browser.paper(True)
    try:
        rows, hidden, cut = browser.run("""
            const seen = kind => [...document.querySelectorAll(kind)].filter(one => one.checkVisibility());
            const { height } = document.querySelector('table').getBoundingClientRect();
            const cut = ['body', '#main', '#sizes'].filter(kind =>
                document.querySelector(kind).getBoundingClientRect().height < height);
            return [seen('tbody tr').map(row => row.firstChild.textContent),
                    seen('.pane, #tree, [role=tab], input').map(one => one.id), cut];""")
    finally:
        browser.paper(False)
    equal((hidden, cut), ([], []))
    assert "src/parts/list.js" in rows and len(rows) == 10, rows
    browser.run("dispatchEvent(new Event('afterprint'))")
    equal([row[0] for row in browser.run(TABLE) if row[0].startswith("src/")], ["src/"])


def fits(browser, url):
    """Nothing sticks out of the page, in a wide window and on a phone; both panes have room."""
    for width, height in (1280, 800), (390, 700):
        browser.size(width, height)
        # the key w: with lines that aren't wrapped
        for view_name, *keys in ("",), ("", "w"), ("#bytes",):
            browser.open("about:blank")
            browser.open(f"{url}{view_name}")
            browser.press(*keys)
            inner = browser.run("""
                const { scrollWidth, scrollHeight } = document.documentElement;
                return [innerWidth, scrollWidth, scrollHeight];""")
            assert inner[1] <= inner[0] and inner[2] <= height, (width, inner)
            if not view_name:
                right, low, edge = browser.run("""
                    const [{ right, bottom }, header] = ['#wrap', 'header']
                        .map(one => document.querySelector(one).getBoundingClientRect());
                    return [right, bottom, header.bottom];""")
                assert right <= width and low <= edge, (width, right, low, edge)
            parts = ["generated", "source"] if not view_name else ["tree", "sizes"]
            for part in parts:
                box = browser.run("""
                    const { width, height } = document.getElementById(arguments[0]).getBoundingClientRect();
                    return [width, height];""", part)
                assert box[0] >= min(300, width / 2 - 30) and box[1] >= 150, (width, part, box)
    browser.size(1280, 800)


def fields_have_room(browser, url):
    """On a phone an empty field shows all of what stands in it."""
    browser.size(390, 700)
    browser.open("about:blank")
    browser.open(url)
    for text, width, room in browser.run("""
            const pen = document.createElement('canvas').getContext('2d');
            return [...document.querySelectorAll('.bar input')].filter(one => one.checkVisibility()).map(one => {
                const { font, paddingLeft, paddingRight } = getComputedStyle(one);
                pen.font = font;
                const room = one.clientWidth - parseFloat(paddingLeft) - parseFloat(paddingRight);
                return [one.placeholder, pen.measureText(one.placeholder).width, room];
            });"""):
        assert width <= room, f"{text} is cut: {width} of {room}"
    browser.size(1280, 800)


def errors_have_room(browser, folder):
    """On a phone the error of a refused map has all its words, and is on the screen with its place."""
    browser.size(390, 700)
    (folder / "cut.map").write_text('{"version":3,"sources":["a.js"],"names":["' + '","'.join(
        f"name{number}" for number in range(2000)) + '"],"mappings":"AAAA,CCAA"}')
    browser.open(make_page(folder, "cut.map", "cut.map", status=1))
    whole, seen, lines, tops = browser.run("""
        const error = document.getElementById('error');
        return [error.scrollWidth, error.clientWidth, error.textContent,
                [error, document.querySelector('mark')].map(one => one.getBoundingClientRect())
                    .map(({ top, bottom }) => top >= 0 && bottom <= innerHeight)];""")
    assert whole <= seen, f"{lines} is cut: {whole} of {seen}"
    equal(tops, [True, True])
    browser.size(1280, 800)


# ---- a large map


def large(browser, folder, note):
    """Opens below two seconds of processor time, draws only what is seen, and scrolls at once."""
    made = pages.large(folder)
    url = make_page(folder, "large.js.map", "--base", "http://h/m", "large.js.map")
    size = (folder / "large.js.map.html").stat().st_size
    browser.size(1280, 800)
    browser.devtools("Performance.enable", timeDomain="threadTicks")

    def busy():
        values = browser.devtools("Performance.getMetrics")["metrics"]
        return next(one["value"] for one in values if one["name"] == "TaskDuration")

    browser.open("about:blank")
    before, start = busy(), time.monotonic()
    browser.open(url)
    browser.wait("return document.querySelectorAll('#generated .range').length")
    opened, wall = busy() - before, time.monotonic() - start
    note(f"a script of {made['bytes'] / 1e6:.1f} MB and {made['count']:,} mappings: a page of "
         f"{size / 1e6:.1f} MB, opened in {opened:.2f} s of processor time, {wall:.2f} s by the clock")
    assert opened < 2, opened
    assert browser.run("return document.querySelectorAll('*').length") < 6000

    def follow_four():
        for place in "4:2400001", "2:1234567", "1:1", "3:2":
            said = follow(browser, f"#generated={place}")
            line, column = map(int, place.split(":"))
            mapping = (line - 1) * (made["count"] // 4) + (column - 1) // 10
            at = mapping % made["each"]
            number = mapping // made["each"]
            wanted = f"from {at // 5 + 1}:{at % 5 * 8 + 1} of http://h/m/src/{number % 20}/part{number}.js"
            assert wanted in said, (said, wanted)

    before = busy()
    follow_four()
    for part in range(1, 11):
        browser.run("""
            const pane = document.getElementById('generated');
            pane.scrollTop = pane.scrollHeight * arguments[0];""", part / 10)
        browser.run("return document.getElementById('generated').offsetHeight")
    jumps = busy() - before
    note(f"four links and ten jumps in it: {jumps:.2f} s of processor time")
    assert jumps < 1.5, jumps
    before = busy()
    browser.run("document.getElementById('wrap').click()")
    follow_four()
    for part in range(1, 11):
        browser.run("""
            const pane = document.getElementById('generated');
            pane.scrollLeft = pane.scrollWidth * arguments[0];""", part / 10)
        browser.run("return document.getElementById('generated').offsetHeight")
    jumps = busy() - before
    note(f"the same where lines aren't wrapped: {jumps:.2f} s of processor time")
    assert jumps < 1.5, jumps
    assert browser.run("return document.querySelectorAll('*').length") < 6000
    before = busy()
    browser.run("document.getElementById('bytes-tab').click()")
    sizes = [int(row[1].replace(",", "")) for row in browser.run(TABLE)]
    equal(sum(sizes), made["bytes"])
    note(f"its bytes by source: {busy() - before:.2f} s of processor time")
