"""What the pages of views look like, and how they name instructions. `report` and `grade` use this module."""
import re
from functools import cache
from html import escape

import manual

STYLE = """\
:root { color-scheme: light dark; --ground: #fff; --ink: #1d2430; --quiet: #5b6472; --line: #8885; --soft: #8881; --bar: #4f86c6; --wait: #4f86c633; --mark: #b3541e; --good: #d9f0dd; --bad: #f9dcd7; --some: #fdf0cc; }
@media (prefers-color-scheme: dark) { :root { --ground: #14181f; --ink: #e3e7ee; --quiet: #98a2b3; --bar: #6d9fdc; --wait: #6d9fdc40; --mark: #f0935a; --good: #1e3d29; --bad: #4a2723; --some: #453a17; } }
* { box-sizing: border-box; }
body { font: 15px/1.45 system-ui, sans-serif; max-width: 78em; margin: 0 auto; padding: 1.2em clamp(.8em, 3vw, 2em) 3em; background: var(--ground); color: var(--ink); }
h1 { font-size: 1.5em; overflow-wrap: anywhere; }
h2 { font-size: 1.15em; margin-top: 2em; }
a { color: inherit; text-underline-offset: .2em; }
table { border-collapse: collapse; }
th, td { padding: .08em .6em; text-align: right; vertical-align: top; }
th { font-weight: normal; color: var(--quiet); }
td.text, td.name, th.text { text-align: left; }
.scroll { overflow-x: auto; }
.mono, .class { min-width: 100%; }
code, pre, .mono td, svg text { font: 13px/1.4 ui-monospace, monospace; }
pre { white-space: pre-wrap; overflow-wrap: anywhere; }
.mono td { white-space: pre; }
.mono td.text { white-space: pre-wrap; overflow-wrap: anywhere; min-width: 20em; width: 100%; }
.none { color: var(--quiet); }
:target { background: var(--some); }
@media print { body { max-width: none; padding: 0; } .scroll { overflow: visible; } }
"""


@cache
def instructions():
    """The operators of instructions, by the tables of the manual."""
    named = manual.operators(manual.read())
    return frozenset(named["instruction"] + named["extracode"])


def is_instruction(row):
    """Whether the word of a row of a listing is an instruction, and no constant: by its operator, which stands after a label and a count."""
    fields = row.text.split("#")[0].split()
    if row.text[:1].strip():
        fields = fields[1:]
    if fields and re.fullmatch(r"[-+]\d+D?", fields[0]):
        fields = fields[1:]
    return bool(row.word) and fields[:1] != [] and fields[0] in instructions()


def cells(*values, kind="td"):
    """Cells of a table; a pair is a text and its class."""
    parts = [it if isinstance(it, tuple) else (it, "") for it in values]
    return "".join(f'<{kind}{" class=" + quoted(name) if name else ""}>{escape(str(text))}</{kind}>' for text, name in parts)


def quoted(text):
    return f'"{escape(text)}"'


def table(heads, rows, kind=""):
    """A table of rows, each the text of its cells, which scrolls where it is too wide."""
    head = f"<tr>{cells(*heads, kind='th')}</tr>"
    return f'<div class="scroll"><table class="{kind}">\n{head}\n' + "\n".join(f"<tr>{it}</tr>" for it in rows) + "\n</table></div>"


def page(title, body, style=""):
    """A page that stands alone, without scripts; its links lead to places of its own."""
    return f"""<!DOCTYPE html>
<html lang="en">
<head>
<meta charset="utf-8">
<meta name="viewport" content="width=device-width, initial-scale=1">
<title>{escape(title)}</title>
<style>
{STYLE}{style}</style>
</head>
<body>
<h1>{escape(title)}</h1>
{body}
</body>
</html>
"""
