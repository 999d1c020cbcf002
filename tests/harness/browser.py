"""A real browser plays at a built server: Chromium in the part `browser`, Firefox in the part `firefox`, both headless
and driven over their debugging ports. They need

    apt-get install --no-install-recommends chromium firefox-esr fonts-dejavu-core

`tests/run browser FOLDER` leaves pictures of the page in a folder, at the widths of a desktop and of a phone, light and
dark, to look at. Those that README shows are among them: `page.png` and `page-phone.png`, there with fewer colours
(`pngquant --nofs 64`).
"""
import glob
import json
import os
import tempfile

from harness.devtools import Browser, Firefox
from harness.inputs import read
from harness.journal import Place
from harness.page_costs import count_costs
from harness.page_use import count_help, count_keys, count_log, count_map, count_switches, count_volume, count_way
from harness.parts import part
from harness.proofs import refused
from harness.server import HOST
from harness.shown import EXITS, IN_WINDOW, LOG, by_id, click, text_of, type_line
from harness.visit import Visit
from harness.web import WebServer

# The lines typed, and the end of the log after each.
LINES = [
    ('@dig north|south to "The Library"', "dug room #3"),
    ("@create brass key", "made #6"), ("@dig up|down to The Attic", "dug room #7"), ("north", "exits south #5"),
    ("@dig east|west to The Vault", "dug room #10"), ("@lock east with #6 && !#6", "locked #11"),
    ("east", "That exit is locked."), ("south", "contents Wizard #1"), ("say <b>hello</b>", "said"),
    ("route to The Library", "route #0 to #3 cost 1 by #4"), ("proof route to #3", "8 lines"),
    ("route to The Vault", "no way"), ("@history", "12 lines"),
]
# The line typed while another player is there by Telnet, and the lines of that player.
ASKED, TOLD = "Which way is the library?", ["look", "route to The Library", "say North.", "proof route to The Library"]
# The lines typed before pictures are taken, and those of another player.
SCENE = [
    "@dig west|east to Kitchen", "@dig south|north to Walled Garden", "south", "@dig gate to Orchard", "north", "north",
    "@dig west|east to Reading Room", "@dig northeast|southwest to Observatory", "south",
]
CALLED, ANSWERED = "say The stars are out. Come up to the observatory!", "say On my way."
DESK, SHOWN, PHONE, KEYBOARD = (1200, 800, False), (1280, 860, False), (390, 844, True), (390, 430, True)
NAMES = ["The Hall", "The Library", "The Attic", "The Vault"]
STATE = text_of("state")
ROOMS = "[...document.querySelectorAll('#rooms li')].map((item) => item.textContent).join(' | ')"
FITS = "document.documentElement.scrollWidth <= window.innerWidth"
# The part that measures costs leaves a large world.
EMPTIED = "sessionStorage.clear(), world.clear()"
LOADED, ON = "document.readyState === 'complete'", "document.body.dataset.state === 'on'"
# How often a page of another origin sends lines to the Telnet port, and the log line about it; and the script that
# sends them, which returns how often no answer came.
SENT, TOLD_OF = 400, " why=request "
SEND = """(async (url, count) => {
  const how = { method: 'POST', mode: 'no-cors', body: '\\r\\nconnect Fetched\\r\\nsay by fetch\\r\\n' };
  let ended = 0;
  for (let at = 0; at < count; at += 1) {
    await fetch(url, how).catch(() => { ended += 1; });
  }
  return ended;
})"""


def count_guest(count, browser):
    """Counts whether a guest sees a field for a name, and connects by it."""
    shown = browser.waits_for(f"!{by_id('guest')}.hidden && document.activeElement === {by_id('name')}", 10)
    browser.type("Ann")
    came = browser.waits_for(f"{LOG}.includes('welcome #2') && {by_id('guest')}.hidden", 10)
    count(f"{browser.name}: a guest comes in by a field for a name", shown and came, browser.value(LOG)[-300:])


def type_all(count, browser):
    """Types all lines, and counts whether each is answered in the page."""
    for line, wanted in LINES:
        before = len(browser.value(LOG))
        type_line(browser, line)
        shown = browser.waits_for(f"{LOG}.slice({before}).includes({wanted!r})", 10)
        count(f"{browser.name}: {line}", shown, browser.value(f"{LOG}.slice({before})")[-300:] if not shown else "")


def count_page(count, browser):
    """Counts what the page shows afterwards, once it is drawn."""
    name = browser.name
    browser.value(by_id("words") + ".open = true")
    browser.waits_for(f"{ROOMS}.includes({NAMES[3]!r})", 5)
    text, rooms = browser.value(LOG), browser.value(ROOMS)
    no_markup = browser.value("document.querySelector('#entries p b')") is None
    count(f"{name}: markup is a text", "<b>hello</b>" in text and no_markup)
    count(f"{name}: the list names the rooms", all(each in rooms for each in NAMES), rooms)
    count(f"{name}: the player's room is in the picture", browser.waits_for(IN_WINDOW, 5))
    marks = browser.waits_for("document.querySelectorAll('.reply .checked').length >= 2", 30)
    count(f"{name}: answers are checked", marks or not browser.value("checker !== undefined"))
    browser.value(by_id("line") + ".focus()")
    browser.press("ArrowUp", 38)
    last = browser.value(by_id("line") + ".value")
    count(f"{name}: arrow up gives the last line", last == LINES[-1][0], last)
    browser.value("line.set('route to The L')")
    browser.press("Tab", 9)
    completed = browser.value(by_id("line") + ".value")
    count(f"{name}: Tab completes a name", completed == "route to The Library", completed)
    browser.value("line.set('')")


def count_hands(count, browser):
    """Counts what clicks do: one on a room asks for the way, one walks the way, and one on an exit's button walks."""
    browser.value("document.querySelector('#rooms button').closest('ul').children[1].firstChild.click()")
    shown = browser.waits_for(f"{by_id('all')}.hidden === true && {by_id('step')}.textContent === 'Go: north'", 10)
    count(f"{browser.name}: a click on a room asks the way", shown, browser.value(LOG)[-300:])
    browser.value(by_id("step") + ".click()")
    there = browser.waits_for(f"{by_id('told')}.textContent.startsWith('You are at')", 10)
    count(f"{browser.name}: the way is walked by a click", there, browser.value(by_id("told") + ".textContent"))
    browser.waits_for(f"{EXITS}.childElementCount === 2", 10)
    tall = browser.value(f"Math.min(...[...{EXITS}.children].map((each) => each.offsetHeight))")
    count(f"{browser.name}: exits are buttons of 44 pixels", (tall or 0) >= 44, tall)
    browser.value(f"[...{EXITS}.children].find((each) => each.dataset.exit === '5').click()")
    back = browser.waits_for(f"{by_id('map-name')}.textContent.includes('The Hall')", 10)
    count(f"{browser.name}: an exit's button walks, and the page looks", back, browser.value(LOG)[-300:])


def count_saved(count, browser, folder):
    """Counts whether the checker accepts the single file that the page saves."""
    click(browser, "save")
    for _ in range(50):
        files = glob.glob(f"{folder}/record-*.txt")
        texts = [read(path) for path in files]
        if any(text.endswith(b"end\n") for text in texts):  # A browser makes the file before it has all of it.
            break
        browser.waits_for("false", 0.2)
    history, *proofs = texts[0].split(b"mud proof") if len(texts) == 1 else [b""]
    wrong = refused(history, [b"mud proof" + proof for proof in proofs]) if proofs else [f"{files}"]
    count(f"{browser.name}: the checker accepts what it saves", not wrong, wrong)
    before = len(browser.value(LOG))
    browser.value(f"checkFile(new File([{json.dumps(texts[0].decode())}], 'record'))")
    taken = browser.waits_for(f"{LOG}.slice({before}).split(': checked').length === {len(proofs) + 1}", 10)
    count(f"{browser.name}: and so does the page", taken, browser.value(f"{LOG}.slice({before})"))


def count_still(count, browser):
    """Counts whether a notice leaves the focus and the map unchanged."""
    browser.value(by_id("words") + ".open = true")
    browser.waits_for("document.querySelector('#rooms button')", 5)
    browser.value("document.querySelector('#rooms button').focus()")
    browser.value("map.pan(40, 25)")
    browser.waits_for("false", 0.3)
    before = browser.value("[map.view.x, map.view.y]")
    browser.value("heard('(90000) Bob dances.\\r\\n')")
    browser.waits_for(f"{LOG}.includes('Bob dances.')", 5)
    kept = browser.value("document.activeElement === document.querySelector('#rooms button')")
    count(f"{browser.name}: a notice takes no focus", kept, browser.value("document.activeElement.outerHTML")[:200])
    count(f"{browser.name}: and moves no map", browser.value("[map.view.x, map.view.y]") == before)
    browser.value("talk.latest = 0")


def count_reload(count, browser):
    """Counts whether a reload keeps the log, the map and the name."""
    rooms = browser.value("world.rooms.size")
    browser.value("window.isOld = true")
    browser.value("location.reload()")
    back = browser.waits_for(f"{LOADED} && window.isOld === undefined && {STATE}.startsWith('Ann')", 30)
    kept = browser.value(f"{LOG}.includes('dug room #10')") and browser.value("world.rooms.size") == rooms
    count(f"{browser.name}: a reload keeps log, map and name", back and kept, browser.value(LOG)[-300:])


def count_again(count, browser, server, place):
    """Counts whether the page reconnects by itself, as the same player, to a server that continues the journal."""
    server.kill()
    gone = browser.waits_for(f"{STATE}.startsWith('disconnected')")
    type_line(browser, "say a line that waits")
    waits = browser.value(by_id("line") + ".value") == "say a line that waits"
    count(f"{browser.name}: what is typed meanwhile waits", gone and waits)
    with WebServer("--journal", place.path, port=server.web_port, console=True) as later:
        back = browser.waits_for(f"{STATE} === 'Ann #2'", 60)
        count(f"{browser.name}: it comes back as who it was", back, browser.value(LOG)[-300:])
        browser.value("line.set('')")
        type_line(browser, "quit")
        left = browser.waits_for(f"{STATE} === 'not connected' && !{by_id('connect')}.hidden", 10)
        count(f"{browser.name}: after quit it stays away", left, browser.value(STATE))
        later.type(b"stop\n")
        status, _ = later.end()
        count(f"{browser.name}: the server stops", status == 0, status)


def count_foreign(count, browser, server):
    """Counts whether a page of another origin may play, and whether a page under another name shows a message."""
    browser.open("data:text/html,<p>another page</p>")
    url = server.origin.replace("http", "ws") + "/play"
    made = f"const s = new WebSocket({url!r}); s.onopen = () => go('open'); s.onclose = () => go('closed');"
    given = browser.value(f"new Promise((go) => {{ {made} }})")
    count(f"{browser.name}: a page of another origin may not play", given == "closed", given)
    browser.open(server.origin.replace(HOST, "localhost"))
    told = browser.waits_for(f"/not let this page play|is played at/.test({LOG})", 20)
    count(f"{browser.name}: under another name it says so", told, browser.value(LOG)[-300:])


def count_sent(count, browser):
    """Counts whether lines are executed that a page of another origin makes the browser send to the Telnet port."""
    with WebServer(console=True) as server:
        browser.open(f"{server.origin}/nothing")
        ended = browser.value(f"{SEND}('http://{HOST}:{server.port}/', {SENT})")
        server.type(b"stop\n")
        given = ended, *server.end(), any(TOLD_OF in line for line in server.logged())
    count(f"{browser.name}: lines in requests", given == (SENT, 0, b"mud history 2\nend 0\n", True), given)


def count_both(count, browser, server):
    """Counts whether the page shows what a Telnet player says, and that player reads what the page's player types."""
    bob = Visit(server.port)
    bob.ask("connect Bob")
    bob.ask(f"say {ASKED}")
    count(f"{browser.name}: who came by Telnet is heard", browser.waits_for(f"{LOG}.includes({ASKED!r})", 10))
    for line in TOLD:
        type_line(browser, line)
        browser.waits_for("false", 0.5)
    bob.end()
    heard = any('Ann says, "North."' in line for line in bob.session.read)
    count(f"{browser.name}: and hears", heard, bob.session.read)


def count_tree(count, browser):
    """Counts what a screen reader gets: landmarks, a log that is not read as it grows, a name for each control."""
    tree = browser.tree()
    roles = {role for role, _, _ in tree}
    wanted = {"banner", "main", "complementary", "log", "status", "form", "region"}
    count("browser: landmarks", wanted <= roles, wanted - roles)
    controls = {"button", "textbox", "checkbox", "DisclosureTriangle", "link"}
    nameless = [role for role, name, _ in tree if role in controls and not name]
    count("browser: all that is pressed has a name", not nameless, nameless)
    live = [told.get("live") for role, _, told in tree if role == "log"]
    count("browser: the log is not read as it grows", live in ([None], ["off"]), live)
    spoken = browser.value(by_id("spoken") + ".textContent")
    is_right = "Bob dances." in spoken and "mud history" not in spoken
    count("browser: what is heard is read aloud", is_right, spoken[-300:])


def count_phone(count, browser, server):
    """Counts whether the page fits a phone, without and with a keyboard."""
    browser.resize(*PHONE)
    browser.value("(keepInTab = () => sessionStorage.clear())")
    browser.open(server.origin)
    browser.waits_for(ON)
    for line in ("connect Ann", "@history", "look", "route to The Library"):
        type_line(browser, line)
        browser.waits_for("false", 0.5)
    name = browser.name
    count(f"{name}: the page fits a phone", browser.waits_for(FITS, 5), browser.value("document.body.scrollWidth"))
    tall = browser.value("document.querySelector('header').offsetHeight")
    count(f"{name}: the header is one line", tall <= 60, tall)
    tall = browser.value(by_id("map") + ".offsetHeight")
    count(f"{name}: the map is a strip until it is opened", 0 < tall <= 60, tall)
    browser.value(by_id("map") + ".open = true")
    browser.resize(*KEYBOARD)
    browser.waits_for("false", 0.5)
    tall = browser.value(f"Math.min(...[...{EXITS}.children].map((each) => each.offsetHeight))")
    count(f"{name}: exits are as large as a finger", (tall or 0) >= 44, tall)
    low = browser.value(f"[{by_id('line')}.getBoundingClientRect().bottom, innerHeight]")
    count(f"{name}: nothing is under the keyboard", low[0] <= low[1], low)
    seen = browser.value(by_id("log") + ".clientHeight")
    count(f"{name}: the log can be read above it", seen >= 150, seen)
    browser.resize(*PHONE)


def furnish(browser, server):
    """Digs a house in which another player talks, and asks for a way through it."""
    browser.value(by_id("words") + ".open = false")
    for line in SCENE:
        type_line(browser, line)
        browser.waits_for("talk.asked.length === 0", 10)
    bob = Visit(server.port)
    bob.ask("connect Bob")
    bob.ask(CALLED)
    browser.waits_for(f"{LOG}.includes('The stars')", 10)
    type_line(browser, ANSWERED)
    type_line(browser, "route to Observatory")
    browser.waits_for("hands.trip?.entry.mark?.isDone", 30)
    bob.end()


def count_trip(count, browser):
    """Counts whether one click walks a way: to the observatory, and back."""
    for line, end in (("route to Observatory", "Observatory #25"), ("route to The Hall", "The Hall #0")):
        type_line(browser, line)
        browser.waits_for("talk.asked.length === 0", 10)
        browser.waits_for(f"{text_of('told')}.startsWith('To {end}') && !{by_id('all')}.hidden", 10)
        click(browser, "all")
        there = browser.waits_for(f"{text_of('told')} === 'You are at {end}'", 10)
        count(f"{browser.name}: {line}, and all of it by a click", there, browser.value(LOG)[-300:])


def shoot_desk(browser, folder):
    """Takes pictures at the width of a desktop, light and dark."""
    browser.resize(*DESK)
    browser.value("map.home()")
    for scheme in ("dark", "light"):
        browser.call("Emulation.setEmulatedMedia", features=[{"name": "prefers-color-scheme", "value": scheme}])
        browser.waits_for("false", 0.5)
        browser.shoot(f"{folder}/desk-{scheme}.png")
    browser.resize(*SHOWN)
    browser.waits_for("false", 0.5)
    browser.value("map.whole(), map.change({ scale: 0.9 })")
    browser.waits_for("false", 0.5)
    browser.shoot(f"{folder}/page.png")


def play(count, one, server, folder):
    """Plays in a browser, and counts the facts that hold in both of them."""
    one.resize(*DESK)
    count(f"{one.name}: the page opens", one.open(server.origin) and one.waits_for(ON))
    count_guest(count, one)
    type_all(count, one)
    count_page(count, one)
    count_hands(count, one)
    count_map(count, one)
    count_way(count, one)
    count_switches(count, one)
    count_help(count, one)
    count_both(count, one, server)
    count_saved(count, one, folder)
    count_reload(count, one)
    count_keys(count, one)
    count_log(count, one, folder)
    count_volume(count, one, folder)
    count_still(count, one)


def end_play(count, one, server, place):
    """Counts the facts that end the server, last."""
    one.open(server.origin)
    one.waits_for(f"{STATE}.startsWith('Ann')")
    count_again(count, one, server, place)
    count(f"{one.name}: nothing is said of a fault", not faults(one), faults(one))
    with WebServer() as other:
        count_foreign(count, one, other)


@part("browser", "Chromium plays, comes back after a kill, and saves what the checker accepts", True, "[FOLDER]")
def browser(count, pictures=None):
    with tempfile.TemporaryDirectory() as folder, Place() as place, Browser(folder) as one:
        pictures = pictures or folder
        os.makedirs(pictures, exist_ok=True)
        with WebServer("--journal", place.path) as server:
            play(count, one, server, folder)
            count_tree(count, one)
            furnish(one, server)
            shoot_desk(one, pictures)
            count("browser: the page fits a desk", one.value(FITS))
            count_trip(count, one)
            count_phone(count, one, server)
            one.waits_for("hands.trip?.entry.mark?.isDone", 30)
            one.shoot(f"{pictures}/page-phone.png")
            count_costs(count, one)
            one.value(EMPTIED)
            end_play(count, one, server, place)
            count_sent(count, one)


@part("firefox", "Firefox does the same", True)
def firefox(count):
    with tempfile.TemporaryDirectory() as folder, Place() as place, Firefox(folder) as one:
        with WebServer("--journal", place.path) as server:
            play(count, one, server, folder)
            furnish(one, server)
            count_trip(count, one)
            count_phone(count, one, server)
            count_costs(count, one)
            one.value(EMPTIED)
            end_play(count, one, server, place)


def faults(browser):
    """Returns the errors of the browser, except for a server that has ended, and for the icon that the policy
    forbids."""
    known = ("ERR_CONNECTION", "WebSocket connection to", "favicon.ico", "establish a connection to the server")
    return [text for text in browser.said if not any(each in text for each in known)]
