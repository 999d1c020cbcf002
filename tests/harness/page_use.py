"""The uses of the page in a browser besides typing: a player moves the map, reads the log, walks a route by clicks,
and goes through the page by keys.
"""
import glob
import json
import re

from harness.inputs import read
from harness.shown import EXITS, IN_WINDOW, LOG, by_id, click, text_of, type_line

# The position and the size of the map's picture in the window, and the middle of a room's box in it.
PANE = f"(({{ x, y, width, height }}) => [x, y, width, height])({by_id('picture')}.getBoundingClientRect())"
BOX = "(({ middle }) => middle)(map.picture.boxes.find((box) => box.room === %d))"
IS_WHOLE = """(({ boxes, count, view }) => boxes.length === count && boxes.every(({ x, y, wide, tall }) =>
  x >= 0 && y >= 0 && x + wide <= view.wide && y + tall <= view.tall))(map.picture)"""
AT_END = "(({ scrollTop, clientHeight, scrollHeight }) => scrollTop + clientHeight >= scrollHeight - 24)(log.parts.log)"
# How entries of each kind look, apart from their colour.
LOOKS = """['mine', 'reply', 'notice', 'page'].map((kind) => {
  const { fontFamily, fontSize, fontStyle, fontWeight } = getComputedStyle(document.querySelector(`#entries .${kind}`));
  return [fontFamily, fontSize, fontStyle, fontWeight].join();
})"""
# The time beside a line, or an empty text.
TIME = """((entry) => getComputedStyle(entry, '::before').content === 'none' ? '' : entry.dataset.time)(
  document.querySelector('#entries .mine'))"""
# The node with the focus, and whether it follows the one that had the focus before.
FOCUS = "document.activeElement.id || document.activeElement.textContent.slice(0, 20)"
IS_LATER = """(() => {
  const { activeElement: now } = document, was = window.hadFocus;
  window.hadFocus = now;
  return !was || Boolean(was.compareDocumentPosition(now) & Node.DOCUMENT_POSITION_FOLLOWING);
})()"""
MOST_CONTROLS = 60


def rest(browser, seconds=0.3):
    """Waits until the page has drawn."""
    browser.waits_for("false", seconds)


def count_map(count, browser):
    """Tests that the map can be dragged and scaled, shows all rooms, and asks for a route by a click."""
    name = browser.name
    browser.value(by_id("words") + ".open = false")
    browser.value("map.home()")
    rest(browser)
    count(f"{name}: its letters have 12 pixels", browser.value("map.pen.font").startswith("12px"))
    x, y = browser.value("[map.view.x, map.view.y]")
    left, top, wide, tall = browser.value(PANE)
    middle = [left + wide / 2, top + tall / 2]
    browser.drag(middle, [middle[0] + 60, middle[1] + 40])
    dragged = browser.waits_for(f"map.view.x < {x} && map.view.y < {y}", 5)
    count(f"{name}: the map can be dragged", dragged, browser.value("map.view"))
    for button, sign in (("larger", ">"), ("smaller", "<")):
        scale = browser.value("map.view.scale")
        click(browser, button)
        count(f"{name}: the map can be made {button}", browser.value(f"map.view.scale {sign} {scale}"))
    click(browser, "whole")
    count(f"{name}: the map can be seen whole", browser.waits_for(IS_WHOLE, 5), browser.value("map.view"))
    click(browser, "up")
    above = browser.waits_for(f"{text_of('floor')} === 'floor +1'", 5)
    count(f"{name}: the floor above is seen by a button", above, browser.value(text_of("floor")))
    click(browser, "home")
    count(f"{name}: a button leads back to the player's room", browser.waits_for(IN_WINDOW, 5))
    before = len(browser.value(LOG))
    at = [one + begin for one, begin in zip(browser.value(BOX % 3), (left, top))]
    browser.drag(at, at)
    asked = browser.waits_for(f"{LOG}.slice({before}).includes('route to #3')", 10)
    count(f"{name}: a click on a room in the picture asks the way", asked, browser.value(LOG)[-300:])


def count_way(count, browser):
    """Tests the route bar: it counts the changes since the answer, and goes when the player leaves the end."""
    name = browser.name
    type_line(browser, "route to The Library")
    shown = browser.waits_for(f"{text_of('told')}.startsWith('To The Library') && {by_id('again')}.hidden", 10)
    type_line(browser, "say one more change")
    aged = browser.waits_for(f"{text_of('age')} === '1 change since' && !{by_id('again')}.hidden", 10)
    count(f"{name}: changes since a way are counted", shown and aged, browser.value(text_of("route")))
    click(browser, "again")
    fresh = browser.waits_for(f"{text_of('age')} === '' && {by_id('again')}.hidden", 10)
    count(f"{name}: a click asks for the way again", fresh, browser.value(text_of("route")))
    click(browser, "step")
    browser.waits_for(f"{text_of('told')}.startsWith('You are at')", 10)
    browser.value("window.ticks = setInterval(() => map.show(world), 200)")  # As notices do.
    faded = browser.waits_for("world.route.length === 0", 5)
    browser.value("clearInterval(window.ticks)")
    count(f"{name}: a way that was walked fades", faded)
    type_line(browser, "south")
    count(f"{name}: who goes on has no way any more", browser.waits_for(f"{by_id('route')}.hidden", 10))


def count_switches(count, browser):
    """Tests that the page looks by itself only if that is switched on."""
    for is_on, line in ((False, "north"), (True, "south")):
        browser.value(f"{by_id('looks')}.checked = {json.dumps(is_on)}")
        browser.waits_for("talk.asked.length === 0", 10)
        before = len(browser.value(LOG))
        type_line(browser, line)
        browser.waits_for(f"{LOG}.slice({before}).includes('went by')", 10)
        rest(browser, 1)
        looked = browser.value(f"{LOG}.slice({before}).includes('exits ')")
        count(f"{browser.name}: looking by itself is {'on' if is_on else 'off'}", looked == is_on)
    hidden = browser.value(f"{by_id('connect')}.hidden && {by_id('guest')}.hidden")
    count(f"{browser.name}: who is connected sees neither Connect nor a field for a name", hidden)


def count_help(count, browser):
    """Tests that a button opens the help, and Escape closes it."""
    click(browser, "ask")
    rows = browser.value("help.open && help.querySelectorAll('#commands tr').length")
    browser.press("Escape", 27)
    is_right = browser.waits_for("!help.open", 5) and rows == browser.value("COMMANDS.length")
    count(f"{browser.name}: a button shows what can be typed", is_right, rows)


def count_log(count, browser, folder):
    """Tests the log: its end, times, kinds of lines, the title, and the saved file."""
    name = browser.name
    browser.waits_for("talk.asked.length === 0", 10)
    browser.value("Array.from({ length: 100 }, (_, at) => heard(`(${at}) Bob counts ${at}.\\r\\n`))")
    rest(browser)
    for what, is_button in (("a button", True), ("one's own line", False)):
        browser.value("log.parts.log.scrollTop = 0")
        browser.waits_for("!log.isAtEnd", 5)
        browser.value("heard('(100) Bob rests.\\r\\n')")
        told = browser.waits_for(f"!{by_id('fresh')}.hidden && {text_of('fresh')} === '1 new line'", 5)
        click(browser, "fresh") if is_button else type_line(browser, "look")
        ended = browser.waits_for(f"{AT_END} && {by_id('fresh')}.hidden", 5)
        count(f"{name}: {what} leads to the end of the log", told and ended, browser.value(text_of("fresh")))
    times = [browser.value(TIME)]
    for _ in range(2):
        click(browser, "times")
        times.append(browser.value(TIME))
    on_demand = times[0] == times[2] == "" and re.fullmatch(r"\d\d:\d\d", times[1])
    count(f"{name}: times stand at the edge on demand", on_demand, times)
    browser.value("log.tell('a word of the page')")
    rest(browser)
    looks = browser.value(LOOKS)
    count(f"{name}: kinds of lines differ by more than colour", len(set(looks)) == len(looks), looks)
    count_behind(count, browser)
    click(browser, "save-log")
    browser.waits_for("false", 1)
    saved = b"".join(read(path) for path in glob.glob(f"{folder}/log*.txt"))
    count(f"{name}: the log can be saved", b"say <b>hello</b>\n" in saved, saved[-300:])
    browser.value("talk.latest = 0")


def count_volume(count, browser, folder):
    """Tests the line of a new volume: the page offers the proofs of the one that has ended, and names the new one in
    the record. No server says the line yet, so the test hands it to the page.
    """
    name = browser.name
    type_line(browser, "proof route to #3")
    browser.waits_for("talk.proofs.length > 0 && talk.asked.length === 0", 10)
    proofs = browser.value("talk.proofs.length")
    browser.value("heard('(volume 2)\\r\\n')")
    rest(browser)
    told = browser.value(f"{LOG}.includes('volume 1 has ended, proofs of it: {proofs}')")
    browser.value("[...document.querySelectorAll('.page button.mark')].at(-1).click()")
    rest(browser, 1)
    saved = b"".join(read(path) for path in glob.glob(f"{folder}/volume-1-proofs*.txt"))
    is_all = proofs > 0 and saved.count(b"mud proof") == proofs
    count(f"{name}: the proofs of a volume that has ended can be saved", told and is_all, saved[-300:])
    click(browser, "save")
    shown = browser.waits_for(f"{LOG}.includes('saved volume-2-record-')", 10)
    count(f"{name}: what is saved names its volume", shown, browser.value(LOG)[-300:])
    browser.value("(talk.told = talk.volume = checks.volume = 1, talk.latest = 0)")


def count_behind(count, browser):
    """Tests that the title counts the lines that came while the tab was hidden."""
    browser.value("Object.defineProperty(document, 'hidden', { configurable: true, get: () => true })")
    browser.value("heard('(101) Bob waves.\\r\\n(102) Bob leaves.\\r\\n')")
    behind = browser.value("document.title")
    browser.value("(delete document.hidden, document.dispatchEvent(new Event('visibilitychange')))")
    title = browser.value("document.title")
    is_right = behind == "(2) Seamountcup" and title == "Seamountcup"
    count(f"{browser.name}: the title counts what came behind", is_right, f"{behind}, then {title}")


def count_keys(count, browser):
    """Tests that Tab goes through the page in its order, from its head to the input line."""
    browser.value("(line.set(''), window.hadFocus = undefined)")
    browser.value(by_id("ask") + ".focus()")
    seen, is_ordered = [], True
    while len(seen) < MOST_CONTROLS and (not seen or seen[-1] != "line"):
        seen.append(browser.value(FOCUS))
        is_ordered = browser.value(IS_LATER) and is_ordered
        browser.press("Tab", 9)
    wanted = {"ask", "log", "picture", "map-name", "line"}
    count(f"{browser.name}: keys go through the page in its order", is_ordered and wanted <= set(seen), seen)
    exits = browser.value(f"[...{EXITS}.children].every((each) => each.tabIndex === 0)")
    count(f"{browser.name}: exits are reached by keys", exits)
