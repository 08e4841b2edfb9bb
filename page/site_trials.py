"""What is tried of the page as a folder of files, and of what both forms have: figures, drops, links. For page/test."""

import hashlib
import pathlib
import subprocess
import time

from tried import GAME, SECONDS, TOP, equal, expect

SIZES = ((1440, 900), (1280, 800), (844, 390), (390, 844))
FIGURES = ("prune", "forced", "straight", "diagonal", "whole")
TABS = ("query", "search", "edit", "scenario", "walks", "certificate")


def site_files(tried):
    """The sums are right, another folder is left alone, and no request leaves the address."""
    folder = tried.site(hash_words="#11,17,129,122,jps,none")
    for line in (folder / "MANIFEST").read_text().splitlines():
        wanted, name = line.split("  ")
        equal(f"the sum of {name}", hashlib.sha256((folder / name).read_bytes()).hexdigest(), wanted)
    listed = len((folder / "MANIFEST").read_text().splitlines())
    equal("the files of the MANIFEST", listed, sum(it.is_file() for it in folder.rglob("*")) - 1)
    call = [TOP / "jps-page", "--site", folder, "--module", tried.module]
    equal("a folder that is there", subprocess.run(call, capture_output=True, cwd=TOP).returncode, 1)
    words = ["query", "page/island.map", 11, 17, 129, 122, "show=trace", "engine=jps"]
    tried.printed(tried.jps(*words).rstrip("\n"), "the first query of the site")
    names = tried.browser.run("performance.getEntriesByType('resource').map((it) => it.name)")
    equal("requests that leave the address", [it for it in names if not it.startswith(tried.address)], [])
    print(f"the site's first map is on the screen after {tried.shown()} ms")


def site_queries(tried):
    """Engines, rules, edits, files: each answer is the program's."""
    browser = tried.browser
    tried.site(GAME, f"{GAME}.scen", hash_words="#5,5,44,8,plain,none")
    browser.wait("document.querySelector('#printed').textContent", SECONDS)
    for engine in ("plain", "jps", "block", "plus"):
        browser.press(f"input[name=engine][value={engine}]")
        for rule in ("one", "both", "none"):
            browser.press(f"input[name=rule][value={rule}]")
            words = ["query", GAME, 5, 5, 44, 8, "show=trace", f"engine={engine}", f"rule={rule}"]
            tried.printed(tried.jps(*words).rstrip("\n"), f"site, {engine}, {rule}")
    tried.type("#goal", "5,40")
    browser.press("#tab-edit")
    browser.drag([tried.cell(x, 20) for x in (1, 6, 14, 22)])
    browser.wait("document.querySelector('#edit-count').textContent === '22 edits'", SECONDS)
    browser.press("#save-map")
    (tried.folder / "edited.map").write_bytes(browser.downloaded("edited.map"))
    words = ["engine=plus", "show=trace"]
    wanted = tried.jps("query", tried.folder / "edited.map", 5, 5, 5, 40, *words).rstrip("\n")
    tried.printed(wanted, "the walk on the site's edited map")
    browser.press("#save-script")
    (tried.folder / "edited.script").write_bytes(browser.downloaded("edited.script"))
    equal("the site's script", tried.jps("solve", GAME, tried.folder / "edited.script", *words).splitlines()[-1], wanted)
    browser.press("#tab-scenario")
    told = tried.jps("scen", tried.folder / "edited.map", f"{GAME}.scen", "engine=plus", "show=taken").splitlines()
    browser.wait(f"document.querySelector('#scen-sum').textContent === {told[-1]!r}", SECONDS)
    browser.press("#tab-certificate")
    browser.press("#prove")
    browser.wait("document.querySelector('#checked').textContent", SECONDS)
    expect("the site's certificate is accepted", browser.text("#checked").startswith("accepted least"))
    browser.press("#save-cert")
    equal("the site's certificate", browser.downloaded("walk.cert").decode(), tried.jps("prove", tried.folder / "edited.map", 5, 5, 5, 40))


# Keeps how long each answer took, and how long there was between two frames.
WATCH = (
    "import('./app.js').then(({on, state}) => { window.shown = state; window.answers = []; window.gaps = []; let before = performance.now();"
    " on('answer', () => state.answer && answers.push(state.answer.seconds * 1000));"
    " const frame = (now) => { gaps.push(now - before); before = now; requestAnimationFrame(frame); }; requestAnimationFrame(frame); })"
)


def dragged(tried):
    """How long an answer and a frame take while an end is dragged, on 512 by 512 and 4096 by 4096, in both forms."""
    browser = tried.browser
    for side in (512, 4096):
        path = tried.folder / f"site{side}.map"
        path.write_text(tried.jps("make", 9, side, side, 25))
        ends = tried.jps("problems", path, 9, 40).splitlines()[-1].split("\t")[4:8]
        wanted = tried.jps("query", path, *ends, "engine=block").rstrip("\n")
        x, y, step = int(ends[2]), int(ends[3]), side // 512  # (on the large map a dot is some cells)
        way = [(x - step * (k % 9), y - step * (k // 9)) for k in range(40)]
        for form, begin in (("server", tried.serve), ("site", tried.site)):
            begin(path, hash_words="#" + ",".join([*ends, "block", "none"]))
            browser.wait(f"document.querySelector('#printed').textContent.startsWith('{wanted[:40]}')", SECONDS)
            browser.run(WATCH)
            browser.drag([tried.cell(*it) for it in way])
            there = browser.run("document.querySelector('#goal').value").split(",")
            show = ["show=trace"] if side == 512 else []
            words = tried.jps("query", path, *ends[:2], *there, "engine=block", *show).rstrip("\n")
            # What rests behind the drag is the query as it was chosen.
            rests = f"shown.answer && !shown.answer.isShort && shown.answer.bytes.length === {len(words)}"
            browser.wait(rests, SECONDS)
            equal(f"{form}, {side} x {side}: the answer behind a drag", browser.run("new TextDecoder().decode(shown.answer.bytes)"), words)
            command = browser.text("#command").split("\n")[0]  # (below it stands that of the nearest cell)
            equal(f"{form}, {side} x {side}: the command", "states=" in command, False)
            told = f"{form}, {side} x {side}, an end is dragged:"
            for what in ("answers", "gaps"):
                times = sorted(browser.run(what))
                expect(f"{told} {what}", bool(times))
                told += f" {len(times)} {what}, {times[len(times) // 2]:.1f} ms in the middle, at most {times[-1]:.0f};"
            print(told.replace("gaps", "frames").rstrip(";"))


def both_forms(tried, work):
    """Does something with the page of a server, and with that of a site."""
    for form, begin in (("server", tried.serve), ("site", tried.site)):
        begin(GAME, f"{GAME}.scen", hash_words="#5,5,15,15,jps,none")
        tried.browser.wait("document.querySelector('#printed').textContent", SECONDS)
        work(form)


def drops(tried):
    """A map, a scenario and walks are dropped; a broken map has its fault."""
    browser = tried.browser

    def work(form):
        tried.drop(TOP / "docs/pictures/caves.map")
        browser.wait("document.querySelector('#map-name').textContent.startsWith('caves.map')", SECONDS)
        tried.type("#start", "5,33")
        tried.type("#goal", "60,26")
        tried.printed(tried.jps("query", "docs/pictures/caves.map", 5, 33, 60, 26, "engine=jps", "show=trace").rstrip("\n"), f"{form}, a dropped map")
        scen = tried.folder / "caves.scen"
        scen.write_text(tried.jps("problems", "docs/pictures/caves.map", 3, 20))
        tried.drop(scen)
        browser.run("document.querySelector('#tab-scenario').click()")
        told = tried.jps("scen", "docs/pictures/caves.map", scen, "engine=jps", "show=taken").splitlines()
        browser.wait(f"document.querySelector('#scen-sum').textContent === {told[-1]!r}", SECONDS)
        walks = tried.folder / "caves.walks"
        walks.write_text("none\n" * 20)
        tried.drop(walks)
        browser.run("document.querySelector('#tab-walks').click()")
        told = tried.jps("judge", "docs/pictures/caves.map", scen, walks).splitlines()
        browser.wait(f"document.querySelector('#walks-sum').textContent === {told[-1]!r}", SECONDS)
        broken = tried.folder / "broken.map"
        broken.write_text("type octile\nheight 2\nwidth 3\nmap\n...\n.x.\n")
        tried.drop(broken)
        browser.wait("!document.querySelector('#banner').hidden", SECONDS)
        expect(f"{form}: the fault of a dropped map", browser.text("#banner").startswith("jps: map M5 line 6 column 2"))

    both_forms(tried, work)


def replaced(tried):
    """A map that takes the place of another one in the midst of a query: the query is given up without a word."""
    browser = tried.browser
    path = tried.folder / "replaced.map"
    path.write_text(tried.jps("make", 9, 2048, 2048, 15))
    cells = path.read_text().split("\n", 4)[4].replace("\n", "")
    ends = [str(part) for at in (cells.find("."), cells.rfind(".")) for part in (at % 2048, at // 2048)]
    for form, begin in (("server", tried.serve), ("site", tried.site)):
        begin(path, hash_words="#" + ",".join([*ends, "plain", "none"]))
        tried.shown()
        is_asking = browser.run(
            "import('./query.js').then(({isAsking}) => { const it = document.querySelector('#banner'); window.faults = [];"
            " new MutationObserver(() => it.hidden || faults.push(it.innerText)).observe(it, {attributes: true}); return isAsking(); })"
        )
        expect(f"{form}: a query is under way", is_asking)
        tried.drop(TOP / GAME)
        browser.wait("document.title.startsWith('game49.map') && document.querySelector('#verdict').textContent.includes('√2')", SECONDS)
        equal(f"{form}: what was said of a query on a map that was replaced", browser.run("faults"), [])


def links(tried):
    """Walls that were drawn stand in the link, which leads to them again."""
    browser = tried.browser

    def work(form):
        before = browser.run("location.hash")
        expect(f"{form}: a named map's link has no walls", before == "#5,5,15,15,jps,none")
        browser.press("#tab-edit")
        browser.drag([tried.cell(x, 10) for x in (3, 9, 20)])
        browser.wait("location.hash.includes(';map=49x49.')", SECONDS)
        browser.press("#save-map")
        (tried.folder / "edited.map").write_bytes(browser.downloaded("edited.map"))
        printed = tried.jps("query", tried.folder / "edited.map", 5, 5, 15, 15, "engine=jps", "show=trace").rstrip("\n")
        tried.printed(printed, f"{form}, drawn walls")
        link = browser.run("location.hash")
        tried.load(link)
        tried.printed(printed, f"{form}, a link with walls")
        equal(f"{form}: the link stays", browser.run("location.hash"), link)

    both_forms(tried, work)


def nearest(tried):
    """Where no walk leads to the goal: the line of the nearest cell, its ring, its words and its command."""
    browser = tried.browser

    def look(form, map_path, goal, *words):
        """The printed lines, and what is drawn and told of the second one."""
        ends = [5, 5, *goal]
        told = tried.jps("query", map_path, *ends, *words, "show=trace")
        near = tried.jps("serve", map_path, *words, lines=f"near {' '.join(map(str, ends))}\n")
        what = f"{form}, from {ends[:2]} to {goal}"
        tried.printed((told + near).rstrip("\n"), what)
        x, y = map(int, near.split()[-1].split(","))
        expect(f"{what}: the ring", tried.is_ringed(x, y))
        less, more = sorted((abs(x - goal[0]), abs(y - goal[1])))
        head, away = browser.text("#detail").split(" away")[0].rsplit(", ", 1)
        equal(f"{what}: the nearest cell in words", head, f"The nearest cell that a walk leads to is {x},{y}")
        expect(f"{what}: {away} away", abs(float(away.split()[0]) - (more - less + less * 2**0.5)) < 0.001)
        typed = browser.run("document.querySelector('#command').textContent")
        call = ["sh", "-c", f'jps() {{ {tried.program} "$@"; }}\n{typed}']
        at = TOP if " maps/" in typed else map_path.parent
        done = subprocess.run(call, capture_output=True, text=True, cwd=at)
        equal(f"{what}: what {typed!r} prints", done.stdout, told + near)

    def work(form):
        words = ("engine=jps", "states=arrival", "rule=none")
        tried.type("#goal", "24,3")
        look(form, TOP / GAME, [24, 3], *words)
        tried.keep(f"{form}-nearest")
        if form == "server":
            calls = [pathlib.Path(f"/proc/{it}/cmdline").read_bytes() for it in tried.children()]
            equal("who is asked", sorted(it.split(b"\0")[1] for it in calls), [b"live", b"serve"])
        tried.type("#goal", "15,15")
        printed = tried.jps("query", GAME, 5, 5, 15, 15, "engine=jps", "show=trace").rstrip("\n")
        tried.printed(printed, f"{form}, a goal that can be reached again")
        browser.press("#tab-edit")
        browser.drag([tried.cell(*it) for it in ((12, 12), (18, 12), (18, 18), (12, 18), (12, 12))])
        browser.wait("document.querySelector('#edit-count').textContent === '24 edits'", SECONDS)
        browser.wait("document.querySelector('#verdict').textContent.startsWith('none')", SECONDS)
        browser.press("#save-map")
        path = tried.folder / form / "edited.map"
        path.parent.mkdir()
        path.write_bytes(browser.downloaded("edited.map"))
        look(form, path, [15, 15], *words)
        browser.run("document.querySelector('#tab-query').click()")
        tried.keep(f"{form}-nearest-closed")
        # A drag out of the ring and into it again; its answers are those of where the end is.
        browser.drag([tried.cell(*it) for it in ((15, 15), (20, 20), (30, 30), (14, 14), (13, 13))])
        look(form, path, [13, 13], *words)
        browser.press("#tab-edit")
        browser.press("#undo")
        browser.wait("document.querySelector('#undo').disabled", SECONDS)
        printed = tried.jps("query", GAME, 5, 5, 13, 13, "engine=jps", "show=trace").rstrip("\n")
        tried.printed(printed, f"{form}, behind undo")
        expect(f"{form}: no ring behind undo", not tried.is_ringed(13, 13))

    both_forms(tried, work)


def figures(tried):
    """The five figures step by step, by keys and with walls drawn; what they say is what the program prints."""
    browser = tried.browser

    def steps(name):
        """All steps' words, from the first on."""
        browser.run(f"document.querySelectorAll('#{name} .steps button')[0].focus()")
        count = int(browser.text(f"#{name} .count").split()[-1])
        words = [browser.text(f"#{name} .step")]
        for _ in range(count - 1):
            browser.run(f"document.querySelectorAll('#{name} .steps button')[1].focus()")
            browser.key("Enter")
            words.append(browser.text(f"#{name} .step"))
        return words

    def pick(name, value):
        """Chooses what a figure shows, and waits for its steps."""
        choice = f"document.querySelector('#{name} input[value={value}]')"
        if browser.run(f"{choice}.checked"):
            return
        before = browser.run(f"document.querySelector('#{name}').dataset.ready")
        browser.run(f"{choice}.click()")
        browser.wait(f"document.querySelector('#{name}').dataset.ready !== '{before}'", SECONDS)

    def work(form):
        browser.go(tried.address + "jump.html")
        browser.wait(f"document.querySelectorAll('.live[data-ready]').length === {len(FIGURES)}", SECONDS)
        for name in FIGURES:
            for rule in ("none", "one", "both"):
                pick(name, rule)
                words = steps(name)
                expect(f"{form}, {name}, {rule}: {words}", all(words) and (name == "forced" or len(words) > 1))
                if name in ("straight", "diagonal"):
                    equal(f"{form}, {name}, {rule}: the table says so", browser.run(f"document.querySelector('#{name}').dataset.agrees"), "true")
        pick("whole", "none")
        pick("whole", "cell")
        said = steps("whole")
        expect(f"{form}: the swap is shown", said[-1].startswith("Nothing is lost."))
        check_whole(tried, said)
        pick("straight", "none")
        browser.run("document.querySelector('#straight > svg').focus()")
        for key in ["ArrowRight"] * 5 + ["ArrowDown"] * 2:  # the first one shows the cell that the keys look at
            browser.key(key)
        before = browser.run("document.querySelector('#straight').dataset.ready")
        browser.key("Enter")
        browser.wait(f"document.querySelector('#straight').dataset.ready !== '{before}'", SECONDS)
        said = steps("straight")
        expect(f"{form}: a wall by keys ends the run: {said[-1]}", said[-1].startswith("The run ends after 2 moves"))
        browser.size(844, 390)
        cell = f"#straight > svg rect:nth-child({4 * 11 + 3 + 1})"
        browser.press(cell)
        expect(f"{form}: a click draws the wall below it", browser.run(f"document.querySelector('{cell}').classList.contains('wall')"))
        browser.size(1280, 800)

    both_forms(tried, work)
    tried.browser.size(390, 844, 2, True)
    tried.keep("jump-narrow")
    tried.browser.size(1280, 800)
    tried.keep("jump")


# The map of the last figure, as jump.js has it.
SEARCHED = "........@.@|....@.@....|........@..|..@...@.@@.|...........|..@........|@..........|..@....@.@@|.....@...@."


def check_whole(tried, said):
    """The last figure's states are the program's."""
    path = tried.folder / "searched.map"
    path.write_text("type octile\nheight 9\nwidth 11\nmap\n" + SEARCHED.replace("|", "\n") + "\n")
    line = tried.jps("query", path, 1, 7, 9, 1, "engine=jps", "states=cell", "show=trace").strip()
    taken = [it.split(":")[0] for it in line.split(" taken ")[1].split()]
    shown = [it.split("(")[1].split(")")[0] for it in said if it.startswith("State ")]
    equal("the states of the last figure", shown, taken)


def sizes(tried):
    """Four sizes, light and dark: nothing is wider than the screen, and the goal is not covered."""
    browser = tried.browser

    def work(form):
        for theme in ("light", "dark"):
            browser.theme(theme)
            for width, height in SIZES:
                browser.size(width, height, 1, width < 900)
                for tab in TABS:
                    browser.run(f"document.querySelector('#tab-{tab}').click()")
                    wide = browser.run("Math.max(document.documentElement.scrollWidth, document.querySelector('#panel').scrollWidth + 0)")
                    expect(f"{form}, {width} by {height}, {tab}: {wide} wide", wide <= width)
                browser.run("document.querySelector('#tab-query').click()")
                time.sleep(0.3)
                x, y = tried.cell(15, 15)
                on = browser.run(f"document.elementFromPoint({x}, {y}).tagName")
                equal(f"{form}, {width} by {height}: what lies over the goal", on, "CANVAS")
                tried.keep(f"{form}-{theme}-{width}x{height}")
        browser.size(1280, 800)
        browser.theme("light")

    both_forms(tried, work)


def by_keys(tried):
    """The page by the keyboard alone: both ends, an engine, a wall, a step back."""
    browser = tried.browser
    tried.site(GAME, hash_words="#5,5,15,15,jps,none")
    browser.wait("document.querySelector('#printed').textContent", SECONDS)
    browser.run("document.querySelector('.view canvas').focus()")
    for name in ["ArrowRight"] * 3 + ["ArrowUp"] * 2 + ["g"]:
        browser.key(name)
    tried.printed(tried.jps("query", GAME, 5, 5, 26, 22, "show=trace", "engine=jps").rstrip("\n"), "a goal set by keys on a site")
    browser.key("3")
    browser.run("document.querySelector('.view canvas').focus()")
    browser.key("ArrowLeft")
    browser.key("Enter")
    browser.wait("document.querySelector('#edit-count').textContent === '1 edit'", SECONDS)
    browser.key("u")
    browser.wait("document.querySelector('#undo').disabled", SECONDS)
    tried.printed(tried.jps("query", GAME, 5, 5, 26, 22, "show=trace", "engine=jps").rstrip("\n"), "behind an edit by keys")


PARTS = [site_files, site_queries, dragged, drops, replaced, links, nearest, figures, sizes, by_keys]
