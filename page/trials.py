"""What is tried of the served page, each part on a page of its own: for page/test."""

import json
import pathlib
import subprocess
import time
import urllib.error
import urllib.request

from tried import GAME, SECONDS, TOP, equal, expect

# Milliseconds until a map is on the screen: what is wanted, and what a busy machine is given.
SHOWN = {512: (1000, 8000), 4096: (4000, 30000)}
# What is shown side by side, by its name on the page, and the words that ask for it.
WAYS = {
    "plain": ["engine=plain"],
    "jps-arrival": ["engine=jps"],
    "jps-cell": ["engine=jps", "states=cell"],
    "plus": ["engine=plus"],
}

def query(tried):
    """Clicks, drags, engines, rules, words: each answer is the program's line."""
    browser = tried.browser
    browser.theme("light")
    tried.serve(GAME, hash_words="#23,1,25,1,plain,none")
    tried.printed(tried.jps("query", GAME, 23, 1, 25, 1, "show=trace").rstrip("\n"), "the first query")
    print(f"49 x 49 on the screen after {tried.shown()} ms")
    tried.keep("query")
    browser.click(*tried.cell(5, 5))
    browser.click(*tried.cell(40, 44))
    tried.printed(tried.jps("query", GAME, 5, 5, 40, 44, "show=trace").rstrip("\n"), "two clicks")
    browser.drag([tried.cell(*it) for it in [(40, 44), (42, 40), (45, 30), (44, 8)]])
    tried.printed(tried.jps("query", GAME, 5, 5, 44, 8, "show=trace").rstrip("\n"), "a drag")
    for engine in ("jps", "block", "plus"):
        browser.press(f"input[name=engine][value={engine}]")
        for rule in ("one", "both", "none"):
            browser.press(f"input[name=rule][value={rule}]")
            words = ["query", GAME, 5, 5, 44, 8, "show=trace", f"engine={engine}", f"rule={rule}"]
            tried.printed(tried.jps(*words).rstrip("\n"), f"{engine}, {rule}")
    typed = browser.text("#command")
    told = subprocess.run(["sh", "-c", typed], capture_output=True, text=True, cwd=TOP).stdout.rstrip("\n")
    equal("the command line prints the line", told, browser.text("#printed"))
    call, line = browser.text("#serve-note").splitlines()
    told = subprocess.run(["sh", "-c", call], input=line + "\n", capture_output=True, text=True, cwd=TOP).stdout.rstrip("\n")
    expect("so does the line for serve", browser.text("#printed").startswith(told + " taken "))
    for goal, start, words in (
        ("99,3", "5,5", "outside the goal lies outside the map."),
        ("30,3", "24,3", "blocked the start lies in trees."),
    ):
        tried.type("#goal", goal)
        tried.type("#start", start)
        tried.printed(words.split()[0], f"from {start} to {goal}")
        equal(f"from {start} to {goal}, in words", browser.text("#verdict"), words)


def share(tried):
    """The picture is what `draw` prints."""
    browser = tried.browser
    tried.serve(GAME, hash_words="#23,1,25,1,jps,none")
    browser.wait("document.querySelector('#printed').textContent", SECONDS)
    browser.press("#draw")
    drawn = browser.downloaded("walk-23-1-25-1.svg").decode()
    equal("the saved picture", drawn, tried.jps("draw", GAME, 23, 1, 25, 1, "engine=jps", "show=trace"))


def search(tried):
    """The slider, the player, and the four engines side by side."""
    browser = tried.browser
    tried.serve(GAME, hash_words="#1,1,47,40,plain,none")
    browser.wait("document.querySelector('#printed').textContent", SECONDS)
    browser.press("#tab-search")
    states = tried.jps("query", GAME, 1, 1, 47, 40, "show=trace").split(" taken ")[1].split()
    browser.wait(f"document.querySelector('#at-count').textContent === '{len(states)} of {len(states)}'", SECONDS)
    half = len(states) // 2
    browser.run(f"(() => {{ const it = document.querySelector('#at'); it.value = {half}; it.oninput(); }})()")
    land = tried.colour(30, 47)
    for at in (half - 5, half + 5):
        x, y = states[at].split(":")[0].split(",")
        equal(f"whether state {at} is seen", tried.colour(int(x), int(y)) != land, at < half)
    tried.keep("search-half")
    browser.press("input[name=speed][value='16']")
    browser.press("#play")
    browser.wait(f"document.querySelector('#at-count').textContent === '{len(states)} of {len(states)}'", SECONDS)
    browser.press("#compare-four")
    browser.wait("document.querySelectorAll('#counts tbody tr').length === 4", SECONDS)
    for name, words in WAYS.items():
        told = tried.jps("query", GAME, 1, 1, 47, 40, "show=trace", *words).split(" taken ")[1].split()
        shown = browser.text(f"figure[data-engine={name}] figcaption")
        expect(f"the count of {name}: {shown}, {len(told)}", f" {len(told):,} states, read " in shown)
    tried.keep("compare-light")
    browser.theme("dark")
    tried.keep("compare-dark")
    browser.theme("light")


def edit(tried):
    """Strokes go to `live`; the saved map and script print what is shown."""
    browser = tried.browser
    tried.serve(GAME, hash_words="#5,5,5,40,block,none")
    browser.wait("document.querySelector('#printed').textContent", SECONDS)
    before = browser.run("document.querySelector('#printed').textContent")
    browser.press("#tab-edit")
    browser.drag([tried.cell(x, 20) for x in (1, 6, 14, 22)])
    browser.wait("document.querySelector('#edit-count').textContent === '22 edits'", SECONDS)
    browser.press("#brushes label:nth-child(3)")
    browser.press("input[name=size][value='3']")
    browser.drag([tried.cell(x, 30) for x in (8, 20)])
    browser.wait("document.querySelector('#edit-count').textContent === '67 edits'", SECONDS)
    browser.press("#save-map")
    (tried.folder / "edited.map").write_bytes(browser.downloaded("edited.map"))
    words = ["engine=block", "show=trace"]
    wanted = tried.jps("query", tried.folder / "edited.map", 5, 5, 5, 40, *words).rstrip("\n")
    tried.printed(wanted, "the walk on the edited map")
    expect("it goes round the wall", wanted != before)
    browser.press("#save-script")
    (tried.folder / "edited.script").write_bytes(browser.downloaded("edited.script"))
    equal("the script", tried.jps("solve", GAME, tried.folder / "edited.script", *words).splitlines()[-1], wanted)
    tried.keep("edit")
    for _ in range(2):
        browser.press("#undo")
    browser.wait("document.querySelector('#undo').disabled", SECONDS)
    equal("the count behind undo", browser.text("#edit-count"), "")
    tried.held("y")
    tried.held("z", shift=True)
    browser.wait("document.querySelector('#edit-count').textContent === '67 edits'", SECONDS)
    for _ in range(2):
        tried.held("z")
    browser.wait("document.querySelector('#undo').disabled", SECONDS)
    tried.printed(before, "behind undo")
    browser.press("#save-map")
    equal("the map behind undo", browser.downloaded("edited.map"), (TOP / GAME).read_bytes())


def scenario(tried):
    """Rows are the program's; a click shows the entry; a wrong length is found by the filter."""
    browser = tried.browser
    scen = tried.folder / "wrong.scen"
    lines = (TOP / (GAME + ".scen")).read_text().splitlines()
    lines[3] = lines[3].rsplit("\t", 1)[0] + "\t29"
    scen.write_text("\n".join(lines) + "\n")
    tried.serve(GAME, scen, hash_words="#5,5,15,15,plain,none")
    browser.press("#tab-scenario")
    rows = tried.jps("scen", GAME, scen, "show=taken").splitlines()
    browser.wait("document.querySelector('#scen-sum').textContent.startsWith('sum')", SECONDS)
    equal("the sum", browser.text("#scen-sum"), rows[-1])
    browser.wait("document.querySelector('#plot .mark.block')", SECONDS)
    marks = browser.run("document.querySelector('#plot .mark.plain').getAttribute('d').split('M').length - 1")
    equal("the marks of the plot", marks, sum("taken" in row and "none" not in row for row in rows[:-1]))
    browser.press("#scen-filter .not")
    equal("the list of what is not agree", browser.run("document.querySelectorAll('#scen-list .item').length"), 1)
    expect("how far it is off stands behind the listed length", browser.text("#scen-list .listed") == "29 (+7.0)")
    browser.press("#scen-list .item")
    entry = lines[3].split()
    wanted = tried.jps("query", GAME, *entry[4:8], "show=trace").rstrip("\n")
    tried.printed(wanted, "the entry that was clicked")
    tried.keep("scenario")
    browser.press("#scen-filter .chip")
    browser.run("(() => { const it = document.querySelector('#scen-sort'); it.value = 'error'; it.onchange(); })()")
    equal("the first row by error", browser.text("#scen-list .number"), "3")
    browser.press("#save-list")
    listed = browser.downloaded("rows.tsv").decode().splitlines()
    equal("the rows of the saved list", len(listed), len(rows))
    equal("its first row", listed[1].split("\t")[:7], ["3", "off", *entry[:1], *entry[4:8]])
    browser.run("document.querySelector('#plot svg').focus()")
    browser.key("End")
    last = max(rows[:-1], key=lambda row: float(row.split()[3]) + float(row.split()[4]) * 2**0.5 if len(row.split()) > 4 else 0)
    browser.wait(f"document.querySelector('#scen-said code')?.textContent === {last!r}", SECONDS)


def judge(tried):
    """A refused walk is drawn with the point that is wrong."""
    browser = tried.browser
    scen, walks = tried.folder / "judged.scen", tried.folder / "walks"
    scen.write_text("version 1\n" + "0 m 49 49 5 5 15 15 14\n" * 4)
    walks.write_text("5,5 15,15\n5,5 9,9 30,12 15,15\n5,5 5,20 15,20 15,15\nnone\n")
    tried.serve(GAME, scen, walks)
    browser.press("#tab-walks")
    browser.wait("document.querySelector('#walks-sum').textContent.startsWith('sum')", SECONDS)
    rows = tried.jps("judge", GAME, scen, walks).splitlines()
    equal("the sum of judge", browser.text("#walks-sum"), rows[-1])
    for number, row in enumerate(rows[:-1], 1):
        browser.press(f"#walks-list .item:nth-child({number})")
        expect(f"{row} stands on the page", browser.text("#walks-said").startswith(row))
        if row == "row 2 refused walk 2":
            red, green, blue = tried.colour(30, 12)
            expect("the wrong point is marked", red > 150 and green < 100 and blue < 120)
            tried.keep("judge-wrong-point")
        if "longer" in row:
            tried.keep("judge-longer")
    expect("a wrong point is among the rows", "row 2 refused walk 2" in rows)


def certificate(tried):
    """The certificate is the program's, and accepted."""
    browser = tried.browser
    tried.serve(GAME, hash_words="#1,1,47,40,plain,none")
    browser.wait("document.querySelector('#printed').textContent", SECONDS)
    browser.press("#tab-certificate")
    browser.press("#prove")
    browser.wait("document.querySelector('#checked').textContent", SECONDS)
    expect("it is accepted", browser.text("#checked").startswith("accepted least"))
    browser.press("#save-cert")
    equal("the certificate", browser.downloaded("walk.cert").decode(), tried.jps("prove", GAME, 1, 1, 47, 40))
    tried.keep("certificate")


def manners(tried):
    """Faults in words, keys, names for screen readers, 360 pixels, dark."""
    browser = tried.browser
    broken = tried.folder / "broken.map"
    broken.write_text("type octile\nheight 2\nwidth 3\nmap\n...\n.x.\n")
    tried.serve(broken)
    browser.wait("!document.querySelector('#banner').hidden", SECONDS)
    expect("the fault of a broken map", browser.text("#banner").startswith("jps: map M5 line 6 column 2"))
    browser.click(400, 400)
    browser.key("+")
    browser.press("#open-make")
    browser.press("#make-form button[value=make]")
    browser.wait("document.querySelector('#printed').textContent", SECONDS)
    expect("behind a broken map another one can be made", browser.run("!document.querySelector('main').inert"))
    tried.serve(GAME, hash_words="#5,5,15,15,plain,none")
    browser.wait("document.querySelector('#printed').textContent", SECONDS)
    browser.run("document.querySelector('.view canvas').focus()")
    for name in ["ArrowRight"] * 3 + ["ArrowUp"] * 2 + ["g"]:
        browser.key(name)
    tried.printed(tried.jps("query", GAME, 5, 5, 26, 22, "show=trace").rstrip("\n"), "a goal that was set by keys")
    browser.key("?")
    browser.wait("document.querySelector('#help-dialog').open", SECONDS)
    tried.keep("help")
    browser.key("Escape")
    nameless = browser.run(
        "[...document.querySelectorAll('button, input, canvas, [role=listbox]')].filter((it) => !(it.ariaLabel || it.innerText ||"
        " it.labels?.[0]?.textContent || it.textContent || it.getAttribute('aria-label'))).map((it) => it.outerHTML).join()"
    )
    equal("what has no name", nameless, "")
    browser.theme("dark")
    browser.size(360, 740, 2, True)
    for name in ("query", "search", "edit", "scenario", "walks", "certificate"):
        browser.run(f"document.querySelector('#tab-{name}').click()")
        wide = browser.run("Math.max(document.documentElement.scrollWidth, document.querySelector('#panel').scrollWidth)")
        equal(f"the width of {name}", wide, 360)
        tried.keep(f"narrow-{name}")
    scale = browser.run("import('./stage.js').then(({camera}) => camera.scale)")
    browser.touch("touchStart", (150, 200), (200, 250))
    browser.touch("touchMove", (100, 150), (250, 300))
    browser.touch("touchEnd")
    expect("two fingers zoom", browser.run("import('./stage.js').then(({camera}) => camera.scale)") > scale * 1.5)
    browser.size(1280, 800)
    browser.theme("light")


def made(tried):
    """A map that the program makes, and a scenario for it."""
    browser = tried.browser
    tried.serve("maps/pillar.map")
    tried.shown()
    browser.press("#open-make")
    browser.press("#make-form button[value=make]")
    browser.wait("document.title.startsWith('make-7-96-64-30')", SECONDS)
    browser.press("#tab-scenario")
    browser.press("#make-scen button")
    browser.wait("document.querySelector('#scen-sum').textContent.startsWith('sum 200 agree 200')", SECONDS)
    browser.wait("document.querySelector('#plot .mark.block')", SECONDS)
    browser.press("#scen-other summary")
    browser.press("#save-scen")
    saved = tried.folder / "problems-1-200.scen"
    saved.write_bytes(browser.downloaded("problems-1-200.scen"))
    (tried.folder / "made.map").write_text(tried.jps("make", 7, 96, 64, 30))
    told = tried.jps("scen", tried.folder / "made.map", saved).splitlines()
    equal("the sum of the saved scenario", told[-1], "sum 200 agree 200 near 0 off 0 other 0")
    tried.keep("made")
    for command, printed in (("#command", "#printed"), ("#scen-command", "#scen-sum")):
        typed, wanted = (browser.run(f"document.querySelector('{it}').textContent") for it in (command, printed))
        told = subprocess.run(["sh", "-c", typed], capture_output=True, text=True, cwd=tried.folder).stdout
        equal(f"what {typed!r} prints at last", told.splitlines()[-1], wanted)


def portrait(tried):
    """The picture of README: an island, as `plain` and as `block` search it."""
    browser = tried.browser
    browser.size(1312, 510)
    tried.serve("page/island.map", hash_words="#11,17,129,122,plain,none")
    browser.wait("document.querySelector('#printed').textContent", SECONDS)
    browser.press("#tab-search")
    browser.press("#compare-two")
    browser.wait("document.querySelectorAll('#counts tbody tr').length === 2", SECONDS)
    browser.run("document.activeElement.blur()")
    tried.keep("page")
    browser.size(1280, 800)


def rooms(side, path):
    """A map of rooms with doors."""
    room = 32 if side < 1000 else 64
    doors = lambda row: bytearray(b"@" * side if row % room == 0 else (b"@" + b"." * (room - 1)) * (side // room))
    rows = [doors(row) for row in range(side)]
    for at in range(room // 2, side * side // room, room):
        across, down = at % side, (at // side) * room
        if down:
            rows[down][across + (down // room * 7) % (room // 3)] = ord(".")
            rows[across + (down // room * 5) % (room // 3)][down] = ord(".")
    path.write_bytes(b"type octile\nheight %d\nwidth %d\nmap\n" % (side, side) + b"\n".join(rows) + b"\n")


def large(tried, side):
    """A large map is on the screen soon, is dragged over, and can be zoomed."""
    browser = tried.browser
    path = tried.folder / f"rooms{side}.map"
    rooms(side, path)
    ends = [side // 8 + 3, side // 8 + 5, side - side // 8 + 5, side - side // 8 + 7]
    tried.serve(path, hash_words="#" + ",".join(map(str, ends)) + ",block,none")
    milliseconds = tried.shown()
    wanted, most = SHOWN[side]
    print(f"{side} x {side} on the screen after {milliseconds} ms" + (" (more than wanted)" if milliseconds > wanted else ""))
    expect(f"{side} x {side} took {milliseconds} ms", milliseconds < most)
    show = ["show=trace"] if side * side <= 1 << 19 else []
    browser.wait("document.querySelector('#verdict').textContent.includes('√2')", SECONDS)
    begun = time.monotonic()
    places = [(ends[2] - k * side // 200, ends[3] - k * side // 100) for k in range(31)]
    browser.drag([tried.cell(*it) for it in places])
    there = browser.run("document.querySelector('#goal').value").split(",")
    answer = tried.jps("query", path, *ends[:2], *there, "engine=block", *show).rstrip("\n")
    wanted = " ".join(answer.split(" ")[:3])
    browser.wait(f"document.querySelector('#printed').textContent.startsWith('{wanted}')", SECONDS)
    print(f"{side} x {side}: a drag over 30 places took {time.monotonic() - begun:.1f} s")
    tried.keep(f"rooms{side}")
    if side == 4096:
        stopped(tried)
    browser.wheel(*tried.cell(*ends[:2]), -2500)
    time.sleep(0.3)
    tried.keep(f"rooms{side}-near")
    if side == 4096:
        closed(tried)


def stopped(tried):
    """What takes longer than half a second is shown, and can be stopped; the next query is answered again."""
    browser = tried.browser
    browser.run("document.querySelector('#tab-query').click()")
    # Across the whole map, with all states, the answer takes longer than that on a quick machine, too.
    browser.run("document.querySelector('#show-states').click()")
    browser.press("input[name=engine][value=plain]")
    for end, cell in (("start", "1,1"), ("goal", "4090,4090")):
        browser.run(f"(() => {{ const it = document.querySelector('#{end}'); it.value = '{cell}'; it.onchange(); }})()")
    time.sleep(1.5)  # by then what was asked before is given up
    browser.wait("!document.querySelector('#busy').hidden", SECONDS)
    browser.press("#stop")
    browser.wait("document.querySelector('#verdict').textContent === 'Stopped.'", SECONDS)
    browser.press("input[name=engine][value=block]")
    browser.wait("document.querySelector('#verdict').textContent.includes('√2')", SECONDS)


def closed(tried):
    """Where a page is closed in the midst of a query the program ends."""
    browser = tried.browser
    browser.press("input[name=engine][value=plain]")
    browser.wait("!document.querySelector('#busy').hidden", SECONDS)
    browser.go("about:blank")
    begun = time.monotonic()
    while tried.children() and time.monotonic() - begun < SECONDS:
        time.sleep(0.05)
    equal("programs behind a page that was closed in the midst of a query", tried.children(), [])


def handed(tried):
    """What a page hands over has its form and its size; else it is refused, and the server goes on."""
    tried.serve(GAME, hash_words="#5,5,15,15,plain,none")
    page = json.loads(asked(tried, "open", b"{}")[1])["page"]
    rows, call = ["...", ".@.", "..."], ["query", "0", "0", "2", "2", "engine=jps", "rule=none"]
    told = {"page": page, "rows": rows, "calls": [call]}
    answers = json.loads(asked(tried, "small", json.dumps(told).encode())[1])["answers"]
    path = tried.folder / "pillar.map"
    path.write_text("type octile\nheight 3\nwidth 3\nmap\n...\n.@.\n...\n")
    equal("a call on a small map", answers, [{"status": 0, "out": tried.jps("query", path, 0, 0, 2, 2, "engine=jps")}])
    wrong = [{"rows": []}, {"rows": ["..", "."]}, {"rows": ["x"]}, {"rows": ["."] * 65}, {"rows": 3}, {"calls": [call] * 65}, {"calls": None}]
    wrong += [{"calls": [it]} for it in (["draw"], ["query", "0"], [*call, "tables=/etc/passwd"], [" ".join(call)], ["check", "x"], 7, [7])]
    for it in wrong:
        equal(f"a small map with {str(it)[:60]}", asked(tried, "small", json.dumps({**told, **it}).encode())[0], 400)
    for words, status in (("kind=map&name=m", 410), (f"page={page}&kind=else&name=m", 400), (f"page={page}&kind=map&name=../../m", 200)):
        equal(f"a file with {words.replace(page, 'PAGE')}", asked(tried, f"take?{words}", path.read_bytes())[0], status)
    equal("what is open then", json.loads(asked(tried, f"take?page={page}&kind=scen&name=s", b"version 1")[1])["map"].rsplit("/", 1)[1], "_.._m")
    head = {"Content-Length": str(1 << 27)}
    equal("a file that is too long", asked(tried, f"take?page={page}&kind=map&name=m", b"", head)[0], 413)


def refused(tried):
    """An answer `memory` or `refused` of `serve` is told with what it means, and `serve` is asked again."""
    fake = tried.folder / "fake"
    answers = "read -r line && echo memory && read -r line && echo refused T1"
    fake.write_text(f'#!/bin/sh\n[ "$1" = serve ] && {answers}\nexec {tried.program} "$@"\n')
    fake.chmod(0o755)
    tried.serve(GAME, hash_words="#5,5,15,15,plain,none", program=fake)
    tried.browser.wait("document.querySelector('#printed').textContent", SECONDS)
    for goal, words in (
        ("24,3", "memory There was not enough memory. Another engine may need less."),
        ("24,4", "refused T1 A line is no command."),
    ):
        tried.type("#goal", goal)
        tried.browser.wait(f"document.querySelector('#banner').innerText === {words!r}", SECONDS)
    tried.type("#goal", "24,5")
    near = tried.jps("serve", GAME, "engine=plain", lines="near 5 5 24 5\n").rstrip("\n")
    tried.printed(f"blocked\n{near}", "behind answers that were refused")
    expect("nothing of them is told then", tried.browser.run("document.querySelector('#banner').hidden"))


def asked(tried, name, body, head=None):
    """The status and the bytes that a request is answered with."""
    request = urllib.request.Request(tried.address + name, data=body, headers=head or {}, method="POST")
    try:
        with urllib.request.urlopen(request, timeout=SECONDS) as told:
            return told.status, told.read()
    except urllib.error.HTTPError as fault:
        return fault.code, fault.read()


def left(tried):
    """A page that is closed takes its programs with it, and so does the server; a program that is killed is replaced."""
    browser = tried.browser
    tried.serve(GAME, hash_words="#5,5,15,15,plain,none")
    browser.wait("document.querySelector('#printed').textContent", SECONDS)
    (child,) = tried.children()
    tried.kill(child)
    browser.press("#swap")
    tried.printed(tried.jps("query", GAME, 15, 15, 5, 5, "show=trace").rstrip("\n"), "behind a killed program")
    expect("a program runs for the page", len(tried.children()) == 1)
    browser.go("about:blank")
    begun = time.monotonic()
    while tried.children() and time.monotonic() - begun < SECONDS:
        time.sleep(0.1)
    equal("programs behind a closed page", tried.children(), [])
    tried.load("#5,5,15,15,plain,none")
    browser.wait("document.querySelector('#printed').textContent", SECONDS)
    (child,) = tried.children()
    tried.end_server()
    expect("no program is left behind the server", not pathlib.Path(f"/proc/{child}").exists())
    browser.wait("!document.querySelector('#banner').hidden", SECONDS)


PARTS = [query, share, search, edit, scenario, judge, certificate, manners, made, portrait, handed]
PARTS += [refused, left, lambda tried: large(tried, 512), lambda tried: large(tried, 4096)]
