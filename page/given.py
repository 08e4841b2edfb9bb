"""What a page hands over: files that were dropped or picked, and the small maps of figures."""

import contextlib
import os
import re
import secrets

from connections import Refused

MOST_FILE = 1 << 26
MOST_SMALL = 64  # the sides of a figure's map, and the calls on it at once
SMALL_CALL = re.compile(
    r"(query \d{1,2} \d{1,2} \d{1,2} \d{1,2}|costs \d{1,2} \d{1,2}|tables)"
    r"( engine=(plain|jps|block|plus))?( states=(cell|arrival))?( show=(cells|trace))?( rule=(none|one|both))?"
)


def take(handler, words):
    """A file's bytes in place of the map, the scenario or the walks; its name is only shown."""
    kind, name = (words.get(it, [""])[0] for it in ("kind", "name"))
    session = handler.session(words.get("page", [""])[0])
    length = handler.headers.get("Content-Length", "")
    if kind not in ("map", "scen", "walks") or not re.fullmatch("[0-9]{1,12}", length):
        raise Refused(400, "no such kind of file")
    if int(length) > MOST_FILE:
        raise Refused(413, "the file is too long")
    data = handler.rfile.read(int(length))
    if len(data) < int(length):
        raise ConnectionError
    name = re.sub(r"[^\w.+-]", "_", name, flags=re.ASCII)[-80:].lstrip(".") or kind
    name = f"{kind}/{name}"  # what is handed over has no name of what the page makes
    with session.made(name) as file:
        file.write(data)
    path = session.file(name)
    if kind == "map":
        session.take_map(path)
        session.map_words = session.scen_words = session.scen_path = session.walks_path = None
    elif kind == "scen":
        session.scen_path, session.scen_words, session.walks_path = path, None, None
    else:
        session.walks_path = path
    handler.described(session, words["page"][0])


def small_of(words):
    """The rows of a small map and the words of each call on it, but the map's; or what is wrong with them."""
    rows, calls = words.get("rows"), words.get("calls")
    if not isinstance(rows, list) or not 1 <= len(rows) <= MOST_SMALL or not isinstance(calls, list):
        return "there is no small map"
    if not all(isinstance(it, str) and re.fullmatch("[.GS@OTW]{1,64}", it) and len(it) == len(rows[0]) for it in rows):
        return "the small map has other rows"
    if len(calls) > MOST_SMALL:
        return "too many calls"
    for call in calls:
        if not isinstance(call, list) or not all(isinstance(it, str) for it in call):
            return "a call has another form"
        if not SMALL_CALL.fullmatch(" ".join(call)) or any(" " in it for it in call):
            return "a call has other words"
    return rows, calls


def small(handler, _):
    """Calls on a small map, as of a figure."""
    request = handler.body()
    session = handler.session(request.words.get("page"))
    told = small_of(request.words)
    if isinstance(told, str):
        raise Refused(400, told)
    rows, calls = told
    name = f"small-{secrets.token_hex(8)}.map"
    path = session.file(name)
    answers = []
    with session.made(name) as file:
        file.write(f"type octile\nheight {len(rows)}\nwidth {len(rows[0])}\nmap\n".encode() + "\n".join(rows).encode() + b"\n")
    try:
        for name, *others in calls:
            said = []
            status, _line = session.call([name, path, *others], handler.connection, said.append)
            answers.append({"status": status, "out": b"".join(said).decode("latin-1")})
    finally:
        with contextlib.suppress(OSError):
            os.unlink(path)
    handler.tell({"answers": answers})
