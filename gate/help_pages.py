"""What the program's --help says, read, and what is made of it: a man page, and words that bash completes."""
import re
import subprocess
import time
from typing import NamedTuple

NAME = "agcws"
# The tables of a help: what is written, and what it means.
TABLE = re.compile(r"(Commands|Arguments|Options):\n((?: +\S.*\n)+)\n?")
# Marks that roff takes for others, or as its own.
MARKS = {"\\": r"\(rs", "-": r"\-", "'": r"\(aq", "`": r"\(ga", "^": r"\(ha", "~": r"\(ti"}


class Help(NamedTuple):
    """A text of --help: what a command does, how it is written, the tables by their headings, and all that follows."""

    words: str
    about: str
    usage: str
    tables: dict
    more: str

    def rows(self, heading):
        return self.tables.get(heading, [])


def row_of(line):
    """Returns the two columns of a line of a table."""
    found = re.fullmatch(r" +(\S.*?) {2,}(\S.*)", line)
    if not found:
        raise ValueError(f"a line of --help has not two columns: {line!r}")
    return found.groups()


def help_of(words, text):
    """Returns what a text of --help says."""
    about, usage, rest = text.split("\n\n", 2)
    tables = {}
    while found := TABLE.match(rest):
        tables[found[1]] = [row_of(it) for it in found[2].splitlines()]
        rest = rest[found.end():]
    return Help(words, about, usage.removeprefix("Usage: "), tables, rest.rstrip("\n"))


def helps_of(program):
    """Returns the help of a program, and then of each of its commands."""

    def asked(*words):
        words_asked, options = [program, *words, "--help"], {"capture_output": True, "text": True, "check": True}
        ran = subprocess.run(words_asked, stdin=subprocess.DEVNULL, **options)
        return help_of(" ".join([NAME, *words]), ran.stdout)

    whole = asked()
    return [whole, *(asked(name) for name, _ in whole.rows("Commands") if name != "help")]


def typed(text):
    """Returns a text as roff has it: its marks are those that are typed, and no line is a request."""
    return re.sub(r"(?m)^\.", r"\\&.", re.sub(r"[\\'`^~-]", lambda it: MARKS[it[0]], text))


def as_it_stands(text):
    """Returns lines of roff that show a text line by line as it stands, with the words before a colon in bold."""
    shown = re.sub(r"(?m)^([A-Z][a-z ]*:)", r"\\fB\1\\fR", typed(text))
    return [".PP", ".in 0", ".nf", *shown.split("\n"), ".fi", ".in"] if text else []


def tables_of(help):
    """Returns lines of roff that show the tables of a help."""
    lines = []
    for heading, rows in help.tables.items():
        lines.append(f".SS {heading}")
        for written, meant in rows:
            lines += [".TP", f".B {typed(written)}", typed(meant)]
    return lines


def man_page(helps, version, seconds):
    """Returns the man page of the program, of a version and a date in seconds since 1970."""
    whole, *commands = helps
    date = time.strftime("%Y-%m-%d", time.gmtime(seconds))
    lines = [f'.TH {NAME.upper()} 1 {date} "{NAME} {version}" "User Commands"']
    lines += [".SH NAME", rf"{NAME} \- {typed(whole.about[0].lower() + whole.about[1:])}"]
    lines += [".SH SYNOPSIS", ".nf", *(typed(it.usage) for it in commands), ".fi"]
    lines += [".SH DESCRIPTION", *tables_of(whole), *as_it_stands(whole.more)]
    for it in commands:
        lines += [f'.SH "{it.words.upper()}"', f"{typed(it.about)}.", *tables_of(it), *as_it_stands(it.more)]
    lines += [".SH FILES", ".TP", f".I /usr/share/{NAME}/docs/MANUAL.md", "The manual."]
    lines += [".TP", f".I /usr/share/{NAME}/examples", "Programs with their feeds and outputs."]
    lines += [".TP", f".I /usr/share/{NAME}/views"]
    lines += ["Scripts in Python that show what the program answers, a session for people among them."]
    return "\n".join(lines) + "\n"


def options_of(help):
    """Returns the options of a help, and the values of those that have a list of them."""
    options, values = [], {}
    for written, meant in help.rows("Options"):
        names = re.findall(r"(?<!\S)--?[\w-]+", written)
        options += names
        if possible := re.search(r"\[possible values: (.*?)\]", meant):
            values.update(dict.fromkeys(names, possible[1].replace(",", "")))
    return options, values


# What stands for a command's own words is put in below. Where nothing fits, bash completes the names of files.
COMPLETION = """\
# Completes the words of agcws in bash. It is made of the texts of --help.
_agcws() {
    local words='' word=${COMP_WORDS[COMP_CWORD]} before=${COMP_WORDS[COMP_CWORD - 1]}
    if [ "$COMP_CWORD" = 1 ]; then
        words='COMMANDS'
    else
        case "${COMP_WORDS[1]} $before $word" in
ARMS
        esac
    fi
    COMPREPLY=($(compgen -W "$words" -- "$word"))
}
complete -o bashdefault -o default -F _agcws agcws
"""


def completion(helps):
    """Returns a script of bash that completes the program's words."""
    whole, *commands = helps
    names = [name for name, _ in whole.rows("Commands")]
    arms = [("help help *", " ".join(names))]
    for it in commands:
        name = it.words.split()[1]
        options, values = options_of(it)
        arms += [(f"{name} {option} *", possible) for option, possible in values.items()]
        arms.append((f"{name} * -*", " ".join(options)))
    lines = [f"        {pattern.replace(' ', chr(92) + ' ')}) words='{words}' ;;" for pattern, words in arms]
    return COMPLETION.replace("COMMANDS", " ".join(names + options_of(whole)[0])).replace("ARMS", "\n".join(lines))
