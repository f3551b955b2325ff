"""What the tables of docs/MANUAL.md tell of operators, registers and channels. `lsp`, `report`, `grade`, `editors/make` and the files of Vim and Emacs use this module.

usage: python3 manual.py     prints the operators of each group, as JSON
"""
import json
import os
import re

MANUAL = f"{os.path.dirname(os.path.realpath(__file__))}/../docs/MANUAL.md"
GROUPS = ["directive", "constant", "instruction", "extracode"]


def read(path=MANUAL):
    with open(path, encoding="utf-8") as it:
        return it.read()


def group_of(head, row, tables):
    """The group of the operators that a row of a table names: by the table's head, by what the row says, and by how many tables of codes came before."""
    if head.startswith("| Spelling |"):
        return "extracode" if "extracodes" in row else "instruction"
    if head.startswith("| Operator | Word"):
        return "directive" if "(no word)" in row else "constant"
    if head.startswith("| Operator | Effect"):
        return "directive"
    return "instruction" if tables == 0 else "extracode"


def operators(manual):
    """The operators by their groups, in the order of the manual: of the tables of sections 2 and 4, but for those of flight programs alone, and EQUALS and =, which
    stand in a sentence."""
    named = dict.fromkeys(re.search(r"^`(EQUALS) K`, or `(=) K`", manual, re.M).groups(), "directive")
    sections = re.findall(r"^## [24]\. .*?(?=^## |^### Forms of flight programs)", manual, re.M | re.S)
    tables = 0
    for head, rows in re.findall(r"^(\| (?:Spelling|Operator|Name) \|.*)\n\|[-|:]+\n((?:\|.*\n)*)", "".join(sections), re.M):
        for row in rows.splitlines():
            for name in re.findall(r"`([^` ]+)[^`]*`", row.split("|")[1]):
                named.setdefault(name, group_of(head, row, tables))
        tables += head.startswith("| Name |")
    return {group: [name for name, it in named.items() if it == group] for group in GROUPS}


def told(manual):
    """Of each operator its group, and what the tables of sections 2 and 4 tell of it: its form, and the cells of its row."""
    found = {it: "gives its label the value of its operand" for it in operators(manual)["directive"][:2]}
    sections = re.findall(r"^## [24]\. .*?(?=^## )", manual, re.M | re.S)
    for head, rows in re.findall(r"^\| ((?:Spelling|Operator|Name) \|.*)\|\n\|[-|:]+\n((?:\|.*\n)*)", "".join(sections), re.M):
        heads = [it.strip().lower() for it in head.split("|")]
        for row in rows.splitlines():
            cells = [it.strip() for it in re.split(r"(?<!\\)\|", row.strip("|"))]
            lines = [cells[0], *(f"- {head}: {cell}" for head, cell in zip(heads[1:], cells[1:]) if cell)]
            for name in re.findall(r"`([^` ]+)[^`]*`", cells[0]):
                found.setdefault(name, "\n".join(lines))
    groups = {it: group for group, names in operators(manual).items() for it in names}
    return {it: {"group": groups[it], "told": found[it]} for it in sorted(found) if it in groups}


def numbers_of(cell):
    """The octal numbers that a cell lists, with those of its ranges."""
    for it in re.findall(r"(\d+)(?: to (\d+))?", cell):
        yield from range(int(it[0], 8), int(it[1] or it[0], 8) + 1)


def places(manual):
    """The registers and counters by name, each with its place, and what channels are for."""
    section = lambda number: re.search(rf"^## {number}\. .*?(?=^## |\Z)", manual, re.M | re.S)[0]
    registers, channels = {}, {}
    for places_, cell in re.findall(r"^\| ([\d, to]+) \| (.*?) \|", section(5).partition("| Address |")[0], re.M):
        registers |= {name: f"{place:o}" for place, name in zip(numbers_of(places_), re.findall(r"\b[A-Z]+\b", cell.partition(":")[0]))}
    for names, places_ in re.findall(r"^\| (`[A-Z].*?) \| ([\d, to]+) \|", section(6), re.M):
        registers |= {name: f"{place:o}" for place, name in zip(numbers_of(places_), re.findall(r"`(\w+)`", names))}
    for numbers, use in re.findall(r"^\| (\d{3}[\d, to]*) \| (.*?) \|$", section(5).partition("| Channel |")[2].partition("\n\n")[0], re.M):
        use = re.sub(r" \([^()]*\.agc[^()]*\)", "", re.sub(r"\[(.*?)\]\(.*?\)", r"\1", use).replace("`", ""))
        channels |= {f"{number:o}": use for number in numbers_of(numbers)}
    return {"registers": registers, "channels": channels}


if __name__ == "__main__":
    print(json.dumps(operators(read())))
