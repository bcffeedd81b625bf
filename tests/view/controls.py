"""Tests of what keyboards and screen readers need."""

from browsers import DOWN, ESCAPE, TAB
from common import equal

# Each control that can be used, its name for those who don't see it, and where that comes from.
NAMES = """
    const text = ids => ids?.split(' ').map(id => document.getElementById(id).textContent).join(' ');
    const controls = [...document.querySelectorAll(
        'button, input, select, [tabindex], [role=tab], [role=listbox], [role=option]')];
    return controls.filter(one => one.checkVisibility()).map(one => [one.id || one.outerHTML.slice(0, 80),
        (text(one.getAttribute('aria-labelledby')) || one.getAttribute('aria-label') ||
            (/^(button|div)$/.test(one.localName) ? one.textContent : '')).trim()]);"""

REFERENCES = """
    return ['aria-controls', 'aria-labelledby', 'aria-describedby', 'popovertarget', 'aria-activedescendant']
        .flatMap(name => [...document.querySelectorAll(`[${name}]`)]
            .filter(one => one.checkVisibility() && !document.getElementById(one.getAttribute(name)))
            .map(one => `${one.id} ${name} ${one.getAttribute(name)}`));"""


def have_names(browser, url, refused):
    """Each control has a name, and what it refers to is there; so has the page, and a language."""
    for page, *ids in ((f"{url}#generated=4:5",), (url, "sources"), (f"{url}#bytes",), (refused,)):
        browser.open("about:blank")
        browser.open(page)
        for name in ids:
            browser.run("document.getElementById(arguments[0]).click()", name)
        found = browser.run(NAMES)
        equal([control for control, name in found if not name], [])
        equal(browser.run(REFERENCES), [])
        title, language, headings, mains = browser.run("""
            const seen = kind => [...document.querySelectorAll(kind)].filter(one => one.checkVisibility());
            const { title, documentElement: { lang } } = document;
            return [title, lang, seen('h1').length, seen('main').length];""")
        assert title and (language, headings, mains) == ("en", 1, 1), (title, language, headings, mains)


FOCUS = """
    const one = document.activeElement, { outlineStyle, outlineWidth } = getComputedStyle(one);
    const { width, height } = one.getBoundingClientRect();
    return [one === document.body ? '' : one.id || one.textContent || one.getAttribute('aria-label'),
            outlineStyle !== 'none' && parseFloat(outlineWidth) >= 2 && width > 0 && height > 0];"""


def focus_is_seen(browser, url):
    """By Tab alone each control of a view is reached, and what has the focus has an outline."""
    for tab, wanted in (
            ("texts-tab", ["everywhere", "wrap", "break", "generated", "sources", "source"]),
            ("bytes-tab", ["everywhere", "flat", "gzip"])):
        browser.open("about:blank")
        browser.open(url)
        browser.run("document.getElementById(arguments[0]).click()", tab)
        reached = []
        for _ in range(40):
            browser.press(TAB)
            name, is_seen = browser.run(FOCUS)
            if not name and reached:
                break
            assert is_seen or not name, f"the focus on {name} isn't seen"
            reached.append(name)
        assert {tab, *wanted} <= set(reached), (tab, reached)


def options_are_told(browser, url):
    """The field of a list says which line Enter chooses, and whether the list is open."""
    browser.open("about:blank")
    browser.open(url)
    browser.press("f")
    expanded = "return document.getElementById('everywhere').getAttribute('aria-expanded')"
    equal(browser.run(expanded), "false")
    browser.press("f")
    browser.wait(f"{expanded} === 'true'")
    active = """
        const field = document.getElementById('everywhere');
        const one = document.getElementById(field.getAttribute('aria-activedescendant'));
        return [one.getAttribute('aria-selected'), one.getAttribute('aria-posinset'),
                one.getAttribute('aria-setsize')];"""
    equal(browser.run(active), ["true", "1", "2"])
    browser.press(DOWN)
    equal(browser.run(active), ["true", "2", "2"])
    browser.press(ESCAPE)
    browser.wait(f"{expanded} === 'false'")
