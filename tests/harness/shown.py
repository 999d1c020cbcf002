"""Expressions of JavaScript that read the page in a browser, and one that types a line there."""


def by_id(name):
    return f"document.getElementById({name!r})"


def text_of(name):
    return by_id(name) + ".textContent"


LOG, EXITS = text_of("log"), by_id("exits")
# Asks whether the page draws the player's own room, inside the window.
IN_WINDOW = """(({ boxes, view }) => boxes.some(({ kind, x, y, wide, tall }) => kind === 'here' && x >= 0 && y >= 0 &&
  x + wide <= view.wide && y + tall <= view.tall))(map.picture)"""


def type_line(browser, text):
    browser.value(by_id("line") + ".focus()")
    browser.type(text)


def click(browser, name):
    browser.value(by_id(name) + ".click()")
