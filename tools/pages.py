#!/usr/bin/env python3
"""The man page of jps and its completions for bash, zsh and fish, made from what the program itself says.

    pages.py PROGRAM FOLDER NAME DOCS

writes them below FOLDER, each at its usual place, for a program that is called NAME and whose docs will stand
in the folder DOCS. Commands with their words and settings, statuses and faults are the rows of `--help`; the
words beside those of the field, the form of a map with its example, and the codes of faults stand in
docs/RULES.md and docs/FORMATS.md. What those leave open is asked of the program, which refuses words that it
does not know with status 2: whether a word is a file's name or a number, and which values a setting such as
`engine=ENGINE` has. So is what the example prints.
"""

import concurrent.futures
import pathlib
import re
import subprocess
import sys
import tempfile

WORDS_REFUSED = 2
DOCS = pathlib.Path(__file__).resolve().parent.parent / "docs"
EXAMPLE = ["query", "pillar.map", "0", "0", "2", "2"]


def alternatives(text):
    """The alternatives of a setting, where `key=a|b` stands for `key=a|key=b`."""
    first, *others = text.split("|")
    key = first.split("=")[0]
    return [first, *(it if "=" in it else f"{key}={it}" for it in others)]


class Row:
    """One command of `--help`: its name, its words, its settings as lists of alternatives, what it does."""

    def __init__(self, words, told):
        self.name, *rest = words.split()
        self.words = [it for it in rest if not it.startswith("[")]
        self.settings = [alternatives(it[1:-1]) for it in rest if it.startswith("[")]
        self.told = told


class Help:
    """What `--help` says: its rows, its sentences, its statuses and its faults."""

    def __init__(self, text):
        blocks = [it.split("\n") for it in text.rstrip("\n").split("\n\n")]
        usage = "\n".join(blocks[0])
        found = re.findall(r"^  jps (.*)\n((?:      .*(?:\n|$))+)", usage, re.M)
        self.rows = [Row(words, " ".join(told.split())) for words, told in found]
        last = "\n".join(blocks[-1])
        told = re.fullmatch(r"statuses: (.*)\nfaults, one line on standard error:\n(.*)", last, re.S)
        if not told or len(self.rows) != len(re.findall(r"^  \S", usage, re.M)):
            sys.exit("pages.py: --help has another form than this script reads")
        self.statuses = re.split(r"; (?=\d )", " ".join(told[1].split()))
        faults = re.sub(r"\n {4,}", " ", told[2])
        self.faults = [re.split(r" {2,}", it.strip(), maxsplit=1) for it in faults.split("\n")]
        self.sentences = [" ".join(it) for it in blocks[1:-1]]


class Program:
    """The program, called where no file is, so that accepted words are known by a read that fails."""

    def __init__(self, path, nowhere):
        self.path, self.nowhere = path, nowhere

    def says(self, *words, folder=None):
        ran = subprocess.run([self.path, *words], check=True, capture_output=True, text=True, cwd=folder)
        return ran.stdout

    def accepts(self, *words):
        quiet = {"stdin": subprocess.DEVNULL, "stdout": subprocess.DEVNULL, "stderr": subprocess.DEVNULL}
        return subprocess.run([self.path, *words], cwd=self.nowhere, **quiet).returncode != WORDS_REFUSED

    def accepted(self, lists):
        """For each list of words whether the program accepts it, asked side by side."""
        with concurrent.futures.ThreadPoolExecutor() as pool:
            return list(pool.map(lambda words: self.accepts(*words), lists))

    def kinds(self, row):
        """For each word of the row whether it is a file's name or a number: 1 is both, a/b only the first."""
        ones = ["1"] * len(row.words)
        named = ([row.name, *ones[:k], "a/b", *ones[k + 1 :]] for k in range(len(ones)))
        return ["file" if taken else "number" for taken in self.accepted(named)]

    def values(self, row, setting, sentences):
        """The setting with each of its values. Where `--help` has a name for them, they stand in a sentence
        with that name; where no word there is one, the value is a file's name."""
        key, value = setting.split("=")
        if not value.isupper():
            return [setting]
        near = " ".join(it for it in sentences if re.search(rf"\b{value}\b", it))
        tried = [f"{key}={it}" for it in dict.fromkeys(re.findall(r"\b[a-z]+\b", near))]
        taken = self.accepted([row.name, *["1"] * len(row.words), it] for it in tried)
        return [it for it, is_taken in zip(tried, taken) if is_taken] or [f"{key}="]

    def settings(self, row, sentences):
        named = [setting for group in row.settings for setting in group]
        return [it for setting in named for it in self.values(row, setting, sentences)]


def roff(text):
    """The text as roff reads it, with `words` of the program in bold."""
    text = text.replace("\\", r"\e").replace("-", r"\-")
    text = re.sub(r"`([^`]*)`", r"\\fB\1\\fR", text)
    return re.sub(r"^([.'])", r"\\&\1", text)


def man_row(row, name):
    """A command with its words, names of values in italics."""
    settings = [f"[{'|'.join(group)}]" for group in row.settings]
    words = " ".join([*row.words, *settings])
    return rf"\fB{roff(name)} {roff(row.name)}\fR " + re.sub(r"\b([A-Z]+)\b", r"\\fI\1\\fR", roff(words))


def section(page, heading):
    """What stands below a heading of a page of the docs."""
    return (DOCS / page).read_text().split(f"\n## {heading}\n")[1].split("\n## ")[0]


def table(text, head):
    """The rows of the table with this head in the text, without links."""
    lines = re.sub(r"\[([^]]*)\]\([^)]*\)", r"\1", text).split("\n")
    rows = []
    for line in lines[lines.index(head) + 2 :]:
        if not line.startswith("|"):
            break
        rows.append([it.strip() for it in line.strip("|").split("|")])
    return rows


def glossary():
    """A word of the pages, and the field's with what it is."""
    rows = table(section("RULES.md", "Words"), "| Here | In the field | What it is |")
    return [(here.replace("`", ""), f"{field}: {what}") for here, field, what in rows]


def map_lines():
    """The form of a map: each line's number with its fields, and each byte with what it means."""
    form = table(section("FORMATS.md", "Map file"), "| Line | Fields |")
    means = table(section("RULES.md", "Map and grids"), "| Byte | The format's meaning | Here |")
    return [
        *((f"line {number}" if number[0].isdigit() else number, fields) for number, fields in form),
        *(
            (byte.replace("`", ""), here if meaning == "none" else f"{here} ({meaning})")
            for byte, meaning, here in means
        ),
    ]


def map_file():
    """The whole map that the docs show."""
    return re.search(r"^```text\n(type octile\n.*?)^```$", section("FORMATS.md", "Map file"), re.M | re.S)[1]


def codes():
    """The code of each fault of a text, with where it comes."""
    head = "| Fault | Where |"
    found = re.findall(r"^## (.*)\n", (DOCS / "FORMATS.md").read_text(), re.M)
    texts = [(it, section("FORMATS.md", it)) for it in found]
    return [
        (code, f"{name}: {where}")
        for name, text in texts
        if head in text
        for code, where in table(text, head)
    ]


def man_page(told, version, name, docs, printed):
    def items(pairs):
        return [line for head, body in pairs for line in (".TP", rf"\fB{roff(head)}\fR", roff(body))]

    def as_it_is(text):
        return [".PP", ".nf", *(roff(it) for it in text.splitlines()), ".fi"]

    lines = [
        f'.TH {roff(name.upper())} 1 "" "{roff(version)}" "User Commands"',
        ".ad l",
        ".nh",
        ".SH NAME",
        rf"{roff(name)} \- least walks (shortest paths) on grid maps, each proved to be least",
        ".SH SYNOPSIS",
        *(line for row in told.rows for line in (man_row(row, name), ".br")),
        ".SH COMMANDS",
        *(line for row in told.rows for line in (".TP", man_row(row, name), roff(row.told))),
        ".SH DESCRIPTION",
        *(line for it in told.sentences for line in (".PP", roff(it))),
        ".SH EXIT STATUS",
        *items(it.split(" ", 1) for it in told.statuses),
        ".SH DIAGNOSTICS",
        "A fault is told by one line on standard error.",
        *items((it[0], it[1] if len(it) > 1 else "") for it in told.faults),
        ".PP",
        "The codes of a text's faults:",
        *items(codes()),
        ".SH MAP FILE",
        *items(map_lines()),
        ".SH EXAMPLE",
        roff(f"Let {EXAMPLE[1]} be the file"),
        *as_it_is(map_file()),
        ".PP",
        "Then a least walk round the blocked cell is found so:",
        *as_it_is(f"$ {name} {' '.join(EXAMPLE)}\n{printed}"),
        ".SH WORDS",
        "Words of this page, the field's words for them, and what they mean.",
        *items(glossary()),
        ".SH SEE ALSO",
        roff(f"{docs}/RULES.md has the rules, {docs}/FORMATS.md each file, line and status; there are"),
        roff(f"examples in {pathlib.Path(docs).parent}/examples."),
    ]
    return "\n".join(it for it in lines if it) + "\n"


def quoted(text):
    """The text as one word of a shell."""
    return "'" + text.replace("'", r"'\''") + "'"


BASH = r"""# Completion of @NAME@ for bash, made by ./install.
_jps() {
    local word words=() kinds=() settings=() all=() before
    # bash takes `=` for a word of its own: engine=plus comes in three
    for word in "${COMP_WORDS[@]:0:COMP_CWORD+1}"; do
        if [[ ${#words[@]} -gt 2 && ( $word == = || ${words[-1]} == *= ) ]]; then words[-1]+=$word
        else words+=("$word"); fi
    done
    word=${words[-1]} before=${words[*]:2:${#words[@]}-3}
    case ${words[1]} in
@CASES@
    esac
    local at=$((${#words[@]} - 3)) setting
    if ((at < 0)); then
        all=(@NAMES@)
    elif ((at < ${#kinds[@]})); then
        if [[ ${kinds[at]} == file ]]; then compopt -o default; fi
        return
    elif [[ $word == *=* && " ${settings[*]} " == *" ${word%%=*}= "* ]]; then
        compopt -o default
        return
    else
        for setting in "${settings[@]}"; do
            if [[ " $before" != *" ${setting%%=*}="* ]]; then all+=("$setting"); fi
        done
    fi
    mapfile -t COMPREPLY < <(compgen -W "${all[*]}" -- "$word")
    if [[ ${#COMPREPLY[@]} == 1 && ${COMPREPLY[0]} == *= ]]; then compopt -o nospace; fi
    if [[ $word == *=* && $COMP_WORDBREAKS == *=* ]]; then COMPREPLY=("${COMPREPLY[@]#*=}"); fi
}
complete -F _jps @NAME@
"""

ZSH = r"""#compdef @NAME@
# Completion of @NAME@ for zsh, made by ./install.
local -a kinds settings commands
local at=$((CURRENT - 2)) setting
commands=(
@COMMANDS@
)
case ${words[2]} in
@CASES@
esac
if ((at == 0)); then
    _describe -t commands command commands
elif ((at <= $#kinds)); then
    if [[ ${kinds[at]} == file ]]; then _files; else _message number; fi
elif (($#settings)) && [[ $PREFIX == *=* && -n ${(M)settings:#${PREFIX%%=*}=} ]]; then
    compset -P '*=' && _files
else
    for setting in $settings; do
        if ((${words[(I)${setting%%=*}=*]} == 0 || ${words[(I)${setting%%=*}=*]} == CURRENT)); then
            if [[ $setting == *= ]]; then compadd -S '' -- $setting; else compadd -- $setting; fi
        fi
    done
fi
"""

FISH = r"""# Completion of @NAME@ for fish, made by ./install.
# whether so many words after the command's name stand before the one to complete
function __jps_at --argument-names command count
    set -l words (commandline -opc)
    test (count $words) -eq (math $count + 2); and test "$words[2]" = "$command"
end
# whether all words of the command stand there, and this setting does not
function __jps_may --argument-names command count key
    set -l words (commandline -opc)
    test (count $words) -ge (math $count + 2); and test "$words[2]" = "$command"
    and not string match -q -- "$key=*" $words[3..-1]
end
complete -c @NAME@ -f
"""


def cases(rows, ask):
    """For each command the line by which bash and zsh know its words and settings."""
    words = [(row.name, " ".join(ask.kinds[row]), " ".join(ask.settings[row])) for row in rows]
    return "\n".join("        {}) kinds=({}) settings=({}) ;;".format(*it) for it in words)


def bash(rows, ask):
    return BASH.replace("@CASES@", cases(rows, ask)).replace("@NAMES@", " ".join(row.name for row in rows))


def zsh(rows, ask):
    told = "\n".join(f"    {quoted(f'{row.name}:{row.told}')}" for row in rows)
    return ZSH.replace("@CASES@", cases(rows, ask)).replace("@COMMANDS@", told)


def fish(rows, ask):
    lines = []
    for row in rows:
        lines.append(f"-n 'test (count (commandline -opc)) -eq 1' -a {row.name} -d {quoted(row.told)}")
        at = [k for k, kind in enumerate(ask.kinds[row]) if kind == "file"]
        lines += [f"-n '__jps_at {row.name} {k}' -F" for k in at]
        for setting in ask.settings[row]:
            key = setting.split("=")[0]
            files = " -F" if setting.endswith("=") else ""
            lines.append(f"-n '__jps_may {row.name} {len(row.words)} {key}' -a {setting}{files}")
    return FISH + "".join(f"complete -c @NAME@ {it}\n" for it in lines)


class Answers:
    """What the program was asked, by row."""

    def __init__(self, program, told):
        self.kinds = {row: program.kinds(row) for row in told.rows}
        self.settings = {row: program.settings(row, told.sentences) for row in told.rows}


def main():
    if len(sys.argv) != 5:
        sys.exit("usage: pages.py PROGRAM FOLDER NAME DOCS")
    folder, name, docs = pathlib.Path(sys.argv[2]), sys.argv[3], sys.argv[4]
    with tempfile.TemporaryDirectory() as nowhere:
        program = Program(str(pathlib.Path(sys.argv[1]).resolve()), nowhere)
        told = Help(program.says("--help"))
        ask = Answers(program, told)
        version = program.says("--version").strip()
        (pathlib.Path(nowhere) / EXAMPLE[1]).write_text(map_file())
        printed = program.says(*EXAMPLE, folder=nowhere)
    for place, text in {
        f"share/man/man1/{name}.1": man_page(told, version, name, docs, printed),
        f"share/bash-completion/completions/{name}": bash(told.rows, ask),
        f"share/zsh/site-functions/_{name}": zsh(told.rows, ask),
        f"share/fish/vendor_completions.d/{name}.fish": fish(told.rows, ask),
    }.items():
        (folder / place).parent.mkdir(parents=True, exist_ok=True)
        # (The folder of the docs may have a name that is no text.)
        (folder / place).write_text(text.replace("@NAME@", name), encoding="utf-8", errors="surrogateescape")


main()
