"""What the tests of the views share."""
import os
import subprocess
from collections import defaultdict
from html.parser import HTMLParser

import common
from common import EXAMPLES, VIEWS, Case, rows_of_runs
import pipe

LOST = [f"{EXAMPLES}/lost_sum.agc", f"{EXAMPLES}/lost_sum.feed"]


class ViewCase(Case):
    """Tests of a view, which run the program that all tests run."""

    most_seconds = 120

    @classmethod
    def setUpClass(cls):
        super().setUpClass()
        common.program()


def call(view, *words, given="", **more):
    """Runs a view, and answers its status, its output and its error output."""
    ran = subprocess.run([f"{VIEWS}/{view}", *words], input=given, capture_output=True, text=True, timeout=120, check=False, **more)
    return ran.returncode, ran.stdout, ran.stderr


def runs():
    """The examples that are run: source, feed and steps."""
    for name, feed, steps in rows_of_runs():
        yield f"{EXAMPLES}/{name}.agc", f"{EXAMPLES}/{feed}", int(steps)


def refusal(work):
    """The status and the words of what is refused."""
    try:
        return work()
    except pipe.Refused as refused:
        return refused.status, str(refused)


def text_at(path):
    with open(path, encoding="utf-8") as file:
        return file.read()


def init_of(words, path):
    """The file of an editor with the lines that editors/README.md has to paste behind some words."""
    lines = text_at(f"{VIEWS}/editors/README.md").partition(f"\n{words}")[2].partition("```text\n")[2].partition("```")[0]
    with open(path, "w", encoding="utf-8") as file:
        file.write(lines.replace("PATH", os.path.dirname(VIEWS)))
    return path


class Page(HTMLParser):
    """A page's cells by rows, its texts by tag, all that stands within a tag, and its tags and attributes."""

    def __init__(self, test, text):
        super().__init__()
        self.rows, self.texts, self.inside, self.tags, self.attributes, self.open = [], defaultdict(list), defaultdict(str), set(), set(), []
        self.is_well, self.targets, self.links = True, set(), []
        self.feed(text)
        self.close()
        with test.subTest("each tag of a page has its end"):
            test.assertTrue(self.is_well and not self.open)

    def handle_starttag(self, tag, attrs):
        self.tags.add(tag)
        self.attributes |= {name for name, _ in attrs}
        self.targets |= {value for name, value in attrs if name == "id"}
        self.links += [value for name, value in attrs if name == "href"]
        if tag == "tr":
            self.rows.append([])
        if tag in ("td", "th"):
            self.rows[-1].append("")
        if tag not in ("meta", "br"):
            self.open.append(tag)

    def handle_startendtag(self, tag, attrs):
        self.tags.add(tag)
        self.attributes |= {name for name, _ in attrs}

    def handle_endtag(self, tag):
        self.is_well = self.is_well and self.open.pop() == tag

    def handle_data(self, data):
        if self.open:
            self.texts[self.open[-1]].append(data)
        for tag in {*self.open}:
            self.inside[tag] += data
        if {"td", "th"} & {*self.open}:
            self.rows[-1][-1] += data

    def row(self, cell, at):
        """The row that has a text in some cell."""
        return next(it for it in self.rows if len(it) > at and it[at] == cell)
