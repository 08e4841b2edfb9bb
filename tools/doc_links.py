"""The pages of this repository, and what is wrong with their links: for tools/check-docs and
tools/check-readme.

A link to a file has to lead to one, with a `#` to a heading of it, and from an installed page to what is
installed with it (tools/packed-docs); of a link that leads out only the form is looked at. Where a link's
text is code, as [`word`](FILE), the file has to have the word.
"""

import functools
import pathlib
import re
import subprocess

TOP = pathlib.Path(__file__).resolve().parent.parent
AT_THE_TOP = ("README.md", "CONTRIBUTING.md", "CHANGELOG.md")
WRITTEN = ("bench/results", "bench/.cache")  # by bench/run
BELOW = (
    "docs/*.md",
    "examples/README.md",
    "examples/*/README.md",
    "crates/*/README.md",
    "bench/*.md",
    "page/README.md",
    "edge/README.md",
)


def pages():
    """The pages whose links are looked at."""
    found = sorted(it for name in BELOW for it in TOP.glob(name) if not it.is_symlink())
    return [*(TOP / name for name in AT_THE_TOP), *found]


@functools.cache
def installed():
    """What is installed beside the program, and the folders of that."""
    ran = subprocess.run([TOP / "tools/packed-docs"], check=True, stdout=subprocess.PIPE, text=True)
    files = [TOP / it for it in ran.stdout.splitlines()]
    return {*files, *(above for it in files for above in it.parents)}


def without_blocks(text):
    return re.sub(r"^```.*?^```$", "", text, flags=re.M | re.S)


def anchors(page):
    """The headings of a page, as links name them."""
    heads = re.findall(r"^#+ +(.*?)\s*$", without_blocks(page.read_text()), re.M)
    return {re.sub(r"[^\w\- ]", "", it.lower()).replace(" ", "-") for it in heads}


def is_outward(link):
    return re.fullmatch(r"https?://[\w.-]+\.\w+(/[\w./~%#?=&-]*)?", link)


def words_of(text):
    """The words of a link's text that is code: names, parted by `::`."""
    told = re.findall(r"`([A-Za-z_][\w-]*(?:::[A-Za-z_][\w-]*)*)`", text)
    return [word for one in told for word in one.split("::")]


def lacks_word(target, word):
    return not re.search(rf"(?<![\w-]){re.escape(word)}(?![\w-])", target.read_text())


def link_fault(page, text, link):
    if ":" in link:
        return None if is_outward(link) else f"the link {link} has no form that leads out"
    path, _, anchor = link.partition("#")
    target = (page.parent / path).resolve() if path else page
    if not target.exists():
        return f"the link {link} leads to no file"
    if page in installed() and target not in installed():
        return f"the link {link} leads to what is not installed"
    if anchor and (target.is_dir() or anchor not in anchors(target)):
        return f"the link {link} leads to no heading"
    if target.is_dir():
        return None
    lacking = [word for word in words_of(text) if lacks_word(target, word)]
    return f"the link {link} leads to a file without the word {lacking[0]}" if lacking else None


def link_faults(page):
    text = page.read_text()
    plain = without_blocks(text)
    # links of which the text is code stand whole; of others code is left out, as no link stands there
    coded = re.findall(r"\[((?:`[^`\n]*`)+)\]\(([^)\s]+)\)", plain)
    others = re.findall(r"\]\(([^)\s]+)\)", re.sub(r"`[^`\n]*`", "`", plain))
    images = re.findall(r'<img src="([^"]+)"', text)
    for told, link in [*coded, *(("", it) for it in [*others, *images])]:
        fault = link_fault(page, told, link)
        if fault:
            yield fault
    for name in re.findall(r"(?<![\w/.-])((?:docs|tools|bench|maps|examples)/[\w./-]*\w)", text):
        near = [TOP / name, page.parent / name]
        if not name.startswith(WRITTEN) and not any(it.exists() for it in near):
            yield f"there is no {name}"
