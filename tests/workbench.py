"""The workbench in headless browsers, by clicks and keys, with the module inside: what test_page.py and its like run.

    tests/workbench.py [FOLDER]     makes the pictures of the documents (docs/pictures/workbench*.png), or those of all widths in a folder

The module is AGCWS_MODULE, else dist/agcws.wasm, else the one that test_module.py makes. Where a browser or its driver is not there, its tests are skipped, with the line that
installs them; where it does not start, or ends by itself, they are skipped too. What takes how long is printed, and no test depends on it.
"""
import contextlib
import functools
import http.server
import itertools
import json
import math
import os
import re
import subprocess
import sys
import tempfile
import threading
import time
import unittest

from common import ROOT
import driver
import test_module


# A page that is served already, in place of the one that is made here.
SERVED = os.environ.get("AGCWS_PAGE")
# The steps of the long run: all of them with AGCWS_LONG, since a busy machine takes minutes for these.
STEPS = 100_000_000 if os.environ.get("AGCWS_LONG") else 5_000_000
# The most seconds of what is waited for, on a machine however busy.
MOST_SECONDS = 120
WIDTHS = (360, 1024, 1920, 2560)
# Which tests a browser other than Chromium is tried by. (In WebKit no session waits for its next line, so each line costs what
# all before it have cost.)
OF_SEARCH = ("the_lost_sum_is_found_by_three_clicks", "mended_it_is_as_stated_and_the_old_curve_stays_to_be_compared", "moves_by_keys_and_by_clicks_come_to_the_same_steps", "a_faulty_line_is_told_while_it_is_typed", "a_thousand_lines_are_checked")
TRIED_BY = {
    "Firefox": {
        "Runs": ("it_is_ready_and_tells_what_it_is", "nothing_is_asked_of_any_server_and_no_rule_of_the_policy_is_broken", "a_server_may_have_it_too"),
        "Search": OF_SEARCH,
        "Used": ("a_click_below_a_text_enters_it", "what_a_text_of_tests_claims_is_green_and_red", "nothing_moves_away_below_the_pointer", "a_program_is_begun_and_named", "a_lesson_begins_at_its_start_and_what_idles_is_narrow"),
        "Kept": ("what_is_typed_is_there_after_a_reload_in_the_midst_of_a_run", "a_full_store_is_told_and_nothing_is_lost", "two_tabs_never_write_over_one_another", "a_link_holds_the_whole_task", "a_spoilt_link_is_told_and_the_page_goes_on"),
    },
    "WebKit": {
        "Runs": ("it_is_ready_and_tells_what_it_is", "a_server_may_have_it_too"),
        "Search": OF_SEARCH,
        "Asked": ("a_name_a_place_and_a_text_are_found", "the_last_choice_is_told_with_its_way", "what_a_run_puts_out_is_stated_by_a_click", "what_the_program_takes_has_a_button"),
        "Beside": ("a_comment_changes_nothing_and_code_that_has_moved_is_the_same", "a_run_that_is_kept_is_compared_with_another_program"),
        "Used": ("what_a_text_of_tests_claims_is_green_and_red", "nothing_moves_away_below_the_pointer", "a_lesson_begins_at_its_start_and_what_idles_is_narrow"),
        "Kept": ("a_full_store_is_told_and_nothing_is_lost",),
    },
}


READY = "return document.body.dataset.ready"
# A program that runs on and on, and changes a word all the time; and one that says nothing but counts in erasable memory.
ENDLESS = "        SETLOC  100\nCOUNT   ERASE\n        SETLOC  4000\nLOOP    CA      COUNT\n        AD      ONE\n        TS      COUNT\n        TCF     LOOP\n        TCF     LOOP\nONE     OCT     1\n"
# One that puts out a word at each fifth step.
TALKING = "        SETLOC  100\nCOUNT   ERASE\n        SETLOC  4000\nLOOP    INCR    COUNT\n        CA      COUNT\n        EXTEND\n        WRITE   5\n        TCF     LOOP\n"


def read(path):
    with open(path, encoding="utf-8") as file:
        return file.read()


class Served(http.server.SimpleHTTPRequestHandler):
    def log_message(self, *_):
        pass


# lost_sum mended: its interrupt keeps A.
MENDED = read(f"{ROOT}/examples/lost_sum.agc").replace("        ADS     TICKS\n", "        ADS     TICKS\n        CA      KEPT\n", 1).replace("        CAF     ONE\n", "        TS      KEPT\n        CAF     ONE\n", 1).replace("TICKS   ERASE\n", "TICKS   ERASE\nKEPT    ERASE\n", 1)


def figure(text):
    """Prints a figure, of which no test makes anything."""
    print(f"\n{text}", file=sys.stderr, flush=True)


@functools.cache
def module():
    """The file of the module. Skips the tests where there is none."""
    given = os.environ.get("AGCWS_MODULE", f"{ROOT}/dist/agcws.wasm")
    if os.path.exists(given):
        return given
    return test_module.module_file()


ROOM = tempfile.TemporaryDirectory(prefix="agcws-page-")


@functools.cache
def made_page():
    """Makes the page with the module. Returns its path."""
    path = f"{ROOM.name}/agcws.html"
    subprocess.run([f"{ROOT}/page/make", "--module", module(), "--out", path], check=True, stdout=subprocess.DEVNULL)
    return path


class Workbench(unittest.TestCase):
    """The page, opened from the disk, in a browser of its own class."""

    browser_class = None

    @classmethod
    def setUpClass(cls):
        if how := cls.browser_class.missing():
            raise unittest.SkipTest(f"{cls.browser_class.name} and its driver are not there: {how}")
        cls.url = SERVED or driver.url_of(made_page())
        try:
            cls.browser = cls.browser_class()
        except (driver.Failed, OSError) as failed:
            raise unittest.SkipTest(f"{cls.browser_class.name} does not start: {failed}") from None
        cls.addClassCleanup(cls.browser.close)

    def setUp(self):
        if self.browser.has_ended:
            self.skipTest(f"{self.browser_class.name} has ended before")
        self.addCleanup(self.tell, time.monotonic())
        try:
            self.open()
        except driver.Gone as gone:
            self.skipTest(f"{self.browser_class.name} has ended: {gone}")

    def tell(self, began):
        if (took := time.monotonic() - began) > 4:
            figure(f"{self.browser_class.name}: {self.id()} took {took:.1f} s")

    @contextlib.contextmanager
    def subTest(self, *given, **more):
        with super().subTest(*given, **more):
            try:
                yield
            except driver.Gone as gone:
                self.skipTest(f"{self.browser_class.name} has ended: {gone}")

    def open(self, more="", url=None):
        """A page of a person who comes for the first time."""
        browser = self.browser
        browser.script("if (window.workbench) { localStorage.clear(); sessionStorage.clear(); workbench.storage.id = null; workbench.storage.isKept = true; workbench.S.isOpen = false }")
        browser.open("about:blank")
        browser.open((url or self.url) + more)
        browser.wait(READY, MOST_SECONDS, what="ready")

    def js(self, text, *given):
        return self.browser.script(text, *given)

    def wait(self, text):
        return self.browser.wait(text, MOST_SECONDS)

    def settled(self, text):
        """What is answered twice, a while apart: where something stands, once it moves no more."""
        last = None
        while (found := self.js(text)) != last:
            last = found
            time.sleep(0.5)
        return found

    def rest(self, text):
        """Waits until something is so, and nothing moves: while something does, the button that stops it moves others."""
        return self.wait(f"return ({text}) && !workbench.S.isMoving && document.getElementById('stop').hidden")

    def take(self, source, steps):
        """Puts a source in the place of the one that stands there, builds it and runs it."""
        self.js("workbench.editor.area.focus(); workbench.editor.area.select(); document.execCommand('insertText', false, arguments[0])", source)
        self.wait("return document.getElementById('run').textContent.startsWith('Build')")
        self.browser.click("#run")
        self.wait(f"return workbench.session.source === workbench.editor.text && workbench.session.n === {steps} && !workbench.S.isMoving")

    def example(self, name):
        self.js("await workbench.openDoc(workbench.examples.find(it => it.name === arguments[0]), {isExample: true})", f"{name}.agc")

    def place(self, selector, x=8, y=8):
        """A place in what is seen, from the corner of a thing."""
        return tuple(self.js("const box = document.querySelector(arguments[0]).getBoundingClientRect(); return [Math.round(box.left + arguments[1]), Math.round(box.top + arguments[2])]", selector, x, y))

    def at(self):
        return self.js("const {p, n} = workbench.session; return [p, n]")

    def still(self):
        """Waits until nothing is being worked out."""
        self.wait("return !workbench.S.isMoving")


class Runs(Workbench):
    def test_every_example_puts_out_what_the_program_does(self):
        for line in read(f"{ROOT}/examples/runs.txt").splitlines():
            if line.startswith("#") or not line.strip():
                continue
            name, _, steps = line.split()
            with self.subTest(name):
                put = self.js("await workbench.openDoc(workbench.examples.find(it => it.name === arguments[0]), {isExample: true}); const {outputs, n} = workbench.session; return [n, outputs.cycles.map((it, i) => `${it} CH ${outputs.channels[i].toString(8).padStart(3, '0')} ${outputs.words[i].toString(8).padStart(5, '0')}\\n`).join('')]", f"{name}.agc")
                self.assertEqual(put, [int(steps), read(f"{ROOT}/examples/{name}.out")])
                self.assertFalse(self.js("return document.getElementById('faults').classList.contains('bad')"))

    def test_it_is_ready_and_tells_what_it_is(self):
        ready = min(int(self.js("return document.body.dataset.ready")) for _ in (self.open() for _ in range(3)))
        figure(f"ready {ready} ms after its opening")
        self.assertEqual(self.at(), [60, 60])
        about = self.js("return workbench.engine.about")
        self.assertEqual(self.js("return document.getElementById('unproved').hidden"), about["proved"])

    def test_nothing_is_asked_of_any_server_and_no_rule_of_the_policy_is_broken(self):
        broken = self.js("return new Promise(done => { addEventListener('securitypolicyviolation', it => done(it.violatedDirective)); setTimeout(() => done(''), 400) })")
        self.assertEqual(broken, "")
        self.assertEqual(self.js("return performance.getEntriesByType('resource').filter(it => !it.name.startsWith('data:') && !it.name.startsWith('blob:')).map(it => it.name)"), [])
        self.assertEqual([it for it in self.browser.said() if "favicon" not in it], [])
        self.assertEqual(self.js("setTimeout('window.evil = 1'); await new Promise(done => setTimeout(done, 200)); return String(window.evil)"), "undefined")
        self.assertEqual(self.js("try { await fetch('http://127.0.0.1:1/'); return 'taken' } catch { return 'refused' }"), "refused")
        self.assertEqual(self.js("return new Promise(done => { addEventListener('securitypolicyviolation', it => done(it.violatedDirective), {once: true}); const made = document.createElement('script'); made.textContent = 'window.evil = 1'; document.body.append(made); setTimeout(() => done(''), 60000) })")[:10], "script-src")

    @unittest.skipIf(SERVED, "the page is served already")
    def test_a_server_may_have_it_too(self):
        handler = functools.partial(Served, directory=os.path.dirname(made_page()))
        with http.server.ThreadingHTTPServer(("127.0.0.1", 0), handler) as server:
            threading.Thread(target=server.serve_forever, daemon=True).start()
            self.open(url=f"http://127.0.0.1:{server.server_port}/agcws.html")
            self.assertEqual(self.at(), [60, 60])
            server.shutdown()


class Search(Workbench):
    def test_the_lost_sum_is_found_by_three_clicks(self):
        browser = self.browser
        self.assertIn("SUM", browser.text("#words"))
        browser.click('#words [data-cell="SUM"]')
        self.wait("return document.querySelector('.why h2')?.textContent.includes('SUM 61')")
        self.assertIn("ONE 1", browser.text(".why .ask"))
        browser.click(".why .link.rupt")
        self.wait("return workbench.session.p === 20")
        self.wait("return document.getElementById('now').textContent.includes('in T3RUPT since step 18')")
        browser.click("#now .badge")
        self.wait("return workbench.session.p === 18")

    def test_mended_it_is_as_stated_and_the_old_curve_stays_to_be_compared(self):
        browser = self.browser
        browser.click('[data-tab="tests"]')
        self.wait("return document.querySelector('.test.bad')")
        browser.click(".test.bad")
        self.wait("return document.querySelector('.why h2')")
        self.wait("return workbench.axis.survey?.kind === 'exact' && !workbench.S.isMoving")
        self.take(MENDED, 60)
        self.wait("return workbench.axis.ghost")
        browser.click("#tab-tests .small")
        self.wait("return document.querySelector('.test.good')")

    def test_moves_by_keys_and_by_clicks_come_to_the_same_steps(self):
        browser = self.browser
        browser.keys("Home")
        self.rest("workbench.session.p === 0")
        for _ in range(3):
            browser.keys("Right")
        self.rest("workbench.session.p === 3")
        browser.click('[data-go="back"]')
        self.rest("workbench.session.p === 2")
        browser.click("#position")
        browser.keys(*"cycle 42", "Enter")
        self.rest("workbench.session.cycles >= 42 && workbench.session.cycles < 48")
        browser.click("#position")
        browser.keys(*"22", "Enter")
        self.rest("workbench.session.p === 22")
        self.wait("return document.querySelector('#editor .is-now')?.textContent.includes('CCS')")
        self.js("document.activeElement.blur(); workbench.editor.showLine(29)")
        x, y = self.settled("const box = document.querySelector('#editor [data-line=\"29\"] .g').getBoundingClientRect(); return [box.left + 8, box.top + 8]")
        browser.pointer((int(x), int(y)), "down", "up")
        self.rest("workbench.S.picture.breaks.length === 1")
        browser.keys("Home")
        self.rest("workbench.session.p === 0")
        browser.keys("n")
        self.rest("workbench.session.p === 9")
        box = self.js("const it = document.getElementById('axis').getBoundingClientRect(); return [it.left, it.top, it.width, it.height]")
        browser.pointer((int(box[0] + box[2] * 0.3), int(box[1] + 60)), "down", (int(box[0] + box[2] * 0.6), int(box[1] + 60)), "up")
        self.rest("workbench.session.p > 30")

    def test_a_faulty_line_is_told_while_it_is_typed(self):
        browser = self.browser
        self.js("workbench.editor.showLine(27); workbench.editor.area.focus(); const at = workbench.editor.text.indexOf('INDEX   COUNT'); workbench.editor.area.setSelectionRange(at + 3, at + 4)")
        began = time.monotonic()
        browser.keys("X")
        self.wait("return document.querySelector('#editor .told:not(.note)')")
        figure(f"a fault is told {(time.monotonic() - began) * 1000:.0f} ms after the key, of which 180 are the page's patience")
        self.assertIn("E15", browser.text("#editor .told:not(.note)"))
        self.assertIn("1 error", browser.text("#faults"))
        # (what stands beside the lines below has moved with them, and the run stands still)
        self.assertEqual(self.at(), [60, 60])
        browser.click("#editor .told:not(.note)")
        self.wait("return document.getElementById('dialog').open")
        self.assertIn("E15", browser.text("#dialog"))

    def test_a_thousand_lines_are_checked(self):
        self.js("await workbench.openDoc({name: 'long.agc', source: '        SETLOC  4000\\n' + '        CA      0\\n'.repeat(1000), steps: 10})")
        took, found = self.js("const times = []; let found; for (let i = 0; i < 5; i += 1) { const began = performance.now(); found = await workbench.session.check(workbench.editor.text, '', false); times.push(performance.now() - began) } return [Math.min(...times), found.filter(it => it.kind === 'error').length]")
        figure(f"check of 1,000 lines {took:.0f} ms")
        self.assertEqual(found, 0)


class Keys(Workbench):
    def test_key_echo_in_time_with_the_clock(self):
        browser = self.browser
        self.example("key_echo")
        browser.click('[data-tab="dsky"]')
        browser.click("#pace")
        self.wait("return workbench.S.isPacing && workbench.session.n > 5000")
        before = self.js("return workbench.session.outputs.count")
        cycles, began = self.js("return [workbench.session.end, performance.now()]")
        browser.click('[data-key="5"]')
        self.wait(f"return workbench.session.outputs.count > {before}")
        self.assertEqual(self.js("const {channels, words} = workbench.session.outputs; return [channels.at(-1), words.at(-1)]"), [0o10, 5])
        time.sleep(0.8)
        now, ended = self.js("return [workbench.session.end, performance.now()]")
        speed = (now - cycles) / (ended - began) * 1000
        figure(f"real time: {speed:.0f} cycles a second of 85333")
        browser.click("#pace")
        self.wait("return !workbench.S.isPacing")
        self.assertRegex(self.js("return workbench.feed.text"), r"(?m)^\d+ CHAN 15 05$")

    def test_a_key_becomes_an_input_of_the_past_and_is_taken_back(self):
        browser = self.browser
        self.example("key_echo")
        n, before = self.js("return [workbench.session.n, workbench.session.outputs.count]")
        self.js("await workbench.seek(30)")
        browser.click('[data-tab="dsky"]')
        browser.click('[data-key="7"]')
        self.wait(f"return workbench.session.outputs.count === {before + 1} && !workbench.S.isMoving")
        self.assertEqual(self.at(), [30, n])
        self.assertIn("7", browser.text(".presses"))
        browser.click(".presses .undo")
        self.wait(f"return workbench.session.outputs.count === {before} && !workbench.S.isMoving")


class Beside(Workbench):
    def test_the_run_before_an_edit_stands_beside_the_new_one(self):
        browser = self.browser
        self.take(MENDED, 60)
        browser.click('[data-tab="compare"]')
        self.wait("return document.querySelector('#tab-compare .pairs.ends')")
        self.assertEqual(browser.text('[data-tab="compare"] i'), "\u2260")
        said = browser.text("#tab-compare .tests")
        self.assertRegex(said, r"Word 1 differs: 00075 \(61\) on CH 012, cycle 87 before, 00062 \(50\) on CH 012, cycle \d+ now\.")
        self.assertIn("They part at step 19: CA ONE before, TS KEPT now.", said)
        # (TS KEPT stands beside nothing, and the steps below it beside those that they were)
        self.assertEqual(self.js("return [...document.querySelectorAll('#tab-compare .pairs:not(.ends) tr.apart')].slice(0, 2).map(it => it.textContent.includes('TS KEPT'))"), [True, False])
        self.assertRegex(browser.text("#tab-compare .ends"), r"SUM 00075 61 00062 50")
        browser.click("#tab-compare .test.bad:nth-of-type(2)")
        self.wait("return workbench.session.p === 19 && !workbench.S.isMoving")
        browser.click("#tab-compare .ends tbody tr")
        self.wait("return workbench.session.p === 60 && document.querySelector('.why h2')")

    def test_a_comment_changes_nothing_and_code_that_has_moved_is_the_same(self):
        source = read(f"{ROOT}/examples/waitlist.agc")
        self.example("waitlist")
        self.still()
        n = self.at()[1]
        # (three words more before the program: all places move)
        moved = source.replace("        SETLOC  4100\n", "        SETLOC  4100   # further on\n        OCT     1\n        OCT     2\n        OCT     3\n", 1)
        self.assertNotEqual(moved, source)
        self.take(moved, n)
        self.browser.click('[data-tab="compare"]')
        self.wait("return document.querySelector('#tab-compare .test.good:nth-of-type(2)')")
        self.assertIn(f"The same up to step {n}.", self.browser.text("#tab-compare .tests"))
        self.assertEqual(self.browser.text('[data-tab="compare"] i'), "=")

    def test_a_run_that_is_kept_is_compared_with_another_program(self):
        browser = self.browser
        browser.click('[data-tab="compare"]')
        browser.click("#tab-compare .small")
        self.example("five_plus_five")
        browser.click('[data-tab="compare"]')
        self.wait("return document.querySelector('#tab-compare .test.bad:nth-of-type(2)')")
        self.assertIn("the kept run lost_sum.agc, 60 steps", browser.text("#tab-compare .other"))
        self.js("[...document.querySelectorAll('#tab-compare .small')].find(it => it.textContent === 'Put its text back').click()")
        self.wait("return workbench.S.name === 'lost_sum.agc' && workbench.session.n === 60 && !workbench.S.isMoving")

    def test_an_input_of_the_past_is_compared_with_the_run_without_it(self):
        self.example("key_echo")
        self.js("await workbench.seek(30)")
        self.browser.click('[data-tab="dsky"]')
        self.browser.click('[data-key="7"]')
        self.wait("return document.querySelector('[data-tab=\"compare\"] i')?.textContent === '\u2260' && !workbench.S.isMoving")
        self.browser.click('[data-tab="compare"]')
        self.wait("return document.querySelector('#tab-compare .test.bad:nth-of-type(2)')")
        self.assertRegex(self.browser.text("#tab-compare .tests"), r"They part at step 3\d: .* before, CHAN 015 00007 .*now")


    def test_both_runs_stand_over_one_scale_with_where_they_part(self):
        browser = self.browser
        self.example("lost_sum")
        # (the pulse comes at 27, as step 16; without it TS SUM is step 17, and the word put out comes at 77: the manual has these)
        browser.click('[data-file="feed"]')
        self.js("workbench.feed.area.focus(); workbench.feed.area.select(); document.execCommand('insertText', false, ' ')")
        self.wait("return document.getElementById('run').textContent.startsWith('Build')")
        browser.click("#run")
        self.wait("return workbench.session.n === 60 && workbench.session.feed.trim() === '' && !workbench.S.isMoving")
        browser.click('[data-tab="compare"]')
        self.wait("return document.querySelector('#tab-compare .lines')")
        self.assertEqual(self.js("return [...document.querySelectorAll('#tab-compare .lines .t-ink')].map(it => it.textContent)"), ["they part: step 16", "outside of interrupts: step 17", "another word put out: word 1"])
        self.assertEqual(self.js("return ['.f-in', '.f-out', 'rect.f-rupt', 'circle'].map(it => document.querySelectorAll(`#tab-compare .lines ${it}`).length)"), [1, 2, 1, 2])
        # (the same cycle of both stands below one another)
        self.assertEqual(self.js("const of = (i) => document.querySelectorAll('#tab-compare .lines .f-out')[i].getBoundingClientRect().left; return Math.sign(of(0) - of(1))"), 1)


class Reached(Workbench):
    """Choices and rounds of a loop in the chain."""

    LINKS = "return [...document.querySelectorAll('.why .link[data-t]')].map(it => Number(it.dataset.t))"

    def test_the_choice_that_led_to_a_step_becomes_part_of_its_chain(self):
        browser = self.browser
        browser.click('#words [data-cell="SUM"]')
        self.wait("return document.querySelector('.why .ask-way')")
        before = self.js(self.LINKS)
        browser.click(".why .ask-way")
        self.wait("return document.querySelector('.why .fork')")
        # (as the manual has it: step 37 chose by COUNT, which steps 32 to 5 had made so)
        self.assertRegex(browser.text(".why .fork"), r"37\s*CCS COUNT\s*to LOOP \+6\s*COUNT 1")
        self.assertEqual(self.js(self.LINKS), sorted([*before, 37, 32, 30, 25, 23, 13, 11, 6, 5], reverse=True))
        self.assertIn("a choice of the program", browser.text(".why .legend"))
        self.assertEqual(self.js("return document.activeElement.classList.contains('ask-way') && document.activeElement.getAttribute('aria-pressed')"), "true")
        browser.click(".why .fork")
        self.wait("return workbench.session.p === 37 && document.querySelector('.why .fork').classList.contains('at')")
        browser.click(".why .ask-way")
        self.wait("return !document.querySelector('.why .fork')")
        self.assertEqual(self.js(self.LINKS), before)
        self.js("document.querySelector('.why .link[data-t=\"20\"]').focus()")
        browser.keys("c")
        self.wait("return document.querySelector('.why .fork')?.textContent.includes('INTERRUPT 3')")

    def test_what_led_to_the_position_is_asked_by_a_key(self):
        self.js("await workbench.seek(43); document.activeElement.blur()")
        self.browser.keys("c")
        self.wait("return document.querySelector('.why h2')?.textContent === 'Why did it come here, after step 43?'")
        # (step 44 is CCS COUNT, of the round to which step 37 led)
        self.assertEqual(self.js(self.LINKS)[0], 37)

    def test_rounds_of_a_loop_are_one_row_that_a_click_opens(self):
        browser = self.browser
        self.take(ENDLESS, 60)
        browser.click('#words [data-cell="COUNT"]')
        self.wait("return document.querySelector('.why .rounds')")
        # (a round is CA, AD, TS and TCF, and the pulse of the feed is step 16: so TS are steps 60 to 20 by four, and 15 to 3)
        self.assertRegex(browser.text(".why .rounds"), r"rounds 2 to 5 of 3 links\s*56 to 42")
        self.assertEqual(self.js(self.LINKS), [60, 59, 58, 40])
        browser.click(".why .rounds")
        self.wait("return document.querySelector('.why .rounds').getAttribute('aria-expanded') === 'true'")
        self.assertEqual(self.js(self.LINKS), [60, 59, 58, 56, 55, 54, 52, 51, 50, 48, 47, 46, 44, 43, 42, 40])
        browser.click(".why .more")
        # (what is open stays so)
        self.wait("return document.querySelector('.why .rounds')?.getAttribute('aria-expanded') === 'true' && workbench.chain.links.length === 45")
        self.assertRegex(browser.text(".why .rounds"), r"rounds 2 to 15 of 3 links\s*56 to 1")


class Asked(Workbench):
    def test_what_the_program_cannot_tell_is_not_offered(self):
        has = self.js("return ['inputs', 'interrupts'].map(it => workbench.session.can('why', it))")
        self.js("document.querySelector('#words [data-cell=\"SUM\"]').dispatchEvent(new MouseEvent('contextmenu', {bubbles: true, cancelable: true}))")
        self.wait("return !document.getElementById('context').hidden")
        names = self.js("return [...document.querySelectorAll('#context b')].map(it => it.textContent)")
        self.assertEqual([it in names for it in ("What does it come from?", "What did interrupts do to it?")], has)
        if has[0]:
            self.js("[...document.querySelectorAll('#context button')].find(it => it.textContent.startsWith('What does it')).click()")
            self.wait("return document.querySelector('.why pre')?.textContent.includes('TIME3') || document.querySelector('.why pre')?.textContent.includes('ONE')")

    def test_a_name_a_place_and_a_text_are_found(self):
        browser = self.browser
        browser.keys("/")
        self.wait("return document.activeElement.classList.contains('finder')")
        browser.keys(*"su")
        self.wait("return document.querySelector('.found')?.textContent.includes('SUM')")
        browser.keys("Enter")
        self.wait("return document.querySelector('.why h2')?.textContent.includes('SUM')")
        browser.click("#find")
        browser.keys(*"02,4104")
        self.wait("return [...document.querySelectorAll('.found')].some(it => it.textContent.includes('02,4104'))")
        browser.keys("Enter")
        self.wait("return !document.getElementById('dialog').open && document.querySelector('#editor .is-pointed')?.textContent.includes('4104')")
        browser.click("#find")
        browser.keys(*"resume")
        self.wait("return [...document.querySelectorAll('.found')].some(it => it.textContent.includes('RESUME'))")
        browser.keys("Escape")
        self.wait("return !document.getElementById('dialog').open")

    def test_a_word_has_a_menu(self):
        browser = self.browser
        self.menu_of('#words [data-cell="SUM"]')
        self.wait("return !document.getElementById('context').hidden")
        self.choose("Back to its last change")
        self.wait("return workbench.session.p === 43 && !workbench.S.isMoving")
        self.js("document.querySelector('#words [data-cell=\"SUM\"]').focus()")
        browser.keys("m")
        self.choose("Stop where it changes")
        self.wait("return document.querySelector('#stops .chip-of')?.textContent.includes('SUM changes')")
        browser.keys("p")
        self.wait("return workbench.session.p === 36 && !workbench.S.isMoving")
        browser.click("#stops .undo")
        self.wait("return document.getElementById('stops').hidden")

    def test_the_last_choice_is_told_with_its_way(self):
        self.assertRegex(self.browser.text("#now .choice"), r"choice at step \d+: CCS COUNT\s*\+0")
        self.browser.click("#now .choice")
        self.wait("return document.querySelector('#editor .is-now')?.textContent.includes('CCS')")
        self.assertEqual(self.js("return [...document.querySelectorAll('.steps-table .way')].map(it => it.textContent).includes('+0')"), True)

    def test_a_zero_that_was_put_out_is_there_to_be_asked_for(self):
        # (the sign of -9 comes out as 0, since two ways of CCS are exchanged)
        source = "        SETLOC  100\nX       ERASE\n        SETLOC  4000\n        CAF     NINE\n        TS      X\n        CCS     X\n        TCF     PLUS\n        TCF     MINUS\n        TCF     NUL\nNUL     CAF     ZERO\n        TCF     OUT\nPLUS    CAF     ONE\n        TCF     OUT\nMINUS   CAF     LESS\nOUT     EXTEND\n        WRITE   11\nHERE    TCF     HERE\nNINE    DEC     -9\nONE     OCT     1\nZERO    OCT     0\nLESS    OCT     77776\n"
        self.take(source, 60)
        self.rest("document.querySelector('#chans [data-cell=\"CH011\"]')")
        self.browser.click('#chans [data-cell="CH011"]')
        self.wait("return document.querySelector('.why h2')?.textContent.includes('CH011 0')")
        self.assertIn("ZERO 0", self.browser.text(".why .ask"))

    def test_what_a_run_puts_out_is_stated_by_a_click(self):
        self.example("relay_word")
        self.browser.click('[data-tab="tests"]')
        self.js("[...document.querySelectorAll('#tab-tests button')].find(it => it.textContent === 'State what this run puts out').click()")
        self.wait("return document.querySelector('.test.good')")
        self.assertEqual(self.js("return workbench.tests.text.match(/ [0-7]{5}\\b/g).length"), self.js("return workbench.session.outputs.count"))
        self.assertRegex(self.js("return workbench.tests.text"), r"^STEPS   \d+\nTEST    as this run\n        CHANNEL 010 .* THEN NOTHING\n$")

    def test_an_exercise_of_the_course_is_red_until_it_is_solved(self):
        self.browser.click("#menu-open")
        self.js("[...document.querySelectorAll('#menu button')].find(it => it.textContent.startsWith('Lesson 3a loop')).click()")
        self.wait("return workbench.S.name === 'lesson_03.agc' && document.body.dataset.ready")
        self.assertIn("# Exercise 3: ", self.js("return workbench.editor.text"))
        self.browser.click('[data-tab="tests"]')
        self.wait("return document.querySelector('.test.bad')")
        self.take(read(f"{ROOT}/examples/course/03/model.agc"), 200)
        self.browser.click("#tab-tests .small")
        self.wait("return document.querySelector('.test.good')")

    def test_the_wrong_solutions_of_a_lesson_are_there_to_be_searched(self):
        self.browser.click("#menu-open")
        self.js("[...document.querySelectorAll('#menu button')].find(it => it.textContent.startsWith('Lesson 10')).click()")
        self.wait("return workbench.S.name === 'lesson_10.agc' && document.body.dataset.ready && !workbench.S.isMoving")
        self.browser.click('[data-tab="tests"]')
        self.assertIn("channel", self.browser.text(".asked"))
        self.js("[...document.querySelectorAll('#tab-tests .small')].find(it => it.textContent === 'Wrong 1').click()")
        self.wait("return workbench.S.name === 'lesson_10_wrong_1.agc' && document.querySelector('.test.bad')")
        self.assertEqual(self.js("return workbench.editor.text"), read(f"{ROOT}/examples/course/10/wrong_1.agc").replace(": a solution with a mistake in it.", ""))
        # (a handler without RESUME is executed once, and no key is taken after that; without RELINT none is taken at all)
        self.js("[...document.querySelectorAll('#tab-tests .small')].find(it => it.textContent === 'Wrong 2').click()")
        self.wait("return workbench.S.name === 'lesson_10_wrong_2.agc' && document.querySelector('.test.bad')")
        self.browser.click(".test.bad")
        self.wait("return document.querySelector('.told-why')")
        self.assertRegex(self.browser.text(".told-why"), r"Why is line \d+ not executed again\?\s+WRITE 10, on line \d+, is executed once, here for the last time\. At the end of the run interrupt 5 waits, since the one that is served has not come to RESUME\.")

    def test_routines_are_passed_over_and_left_and_all_breakpoints_hold(self):
        browser = self.browser
        source = "        SETLOC  100\nX       ERASE\n        SETLOC  4000\n        CA      FIVE\n        TC      TWICE\n        TS      X\n        EXTEND\n        WRITE   11\nDONE    TCF     DONE\nTWICE   DOUBLE\n        RETURN\nFIVE    DEC     5\n"
        self.js("await workbench.openDoc({name: 'calls.agc', source: arguments[0], steps: 40, position: 1})", source)
        self.js("document.activeElement.blur()")
        browser.keys("o")
        self.rest("workbench.session.p === 5 && document.getElementById('said').textContent.includes('It took')")
        self.js("await workbench.seek(2)")
        browser.click('[data-go="out"]')
        self.rest("workbench.session.p === 5")
        for stop, at in (("exec 02,4006", 3), ("change X", 6), ("word X 12", 6), ("chan 11 12", 8)):
            self.js("await workbench.seek(0); await workbench.session.clearBreak(); await workbench.session.breakpoint(arguments[0]); await workbench.seek(1); await workbench.seek(0)", stop)
            browser.click('[data-go="next"]')
            self.rest(f"workbench.session.p === {at}")
        self.js("await workbench.session.clearBreak()")

    def test_what_is_seldom_meant_is_marked_in_the_source_and_on_the_line_of_time(self):
        browser = self.browser
        # (the routine calls another and loses its own way back)
        source = "        SETLOC  4000\n        CA      ONE\n        TC      OUTER\nDONE    TCF     DONE\nOUTER   TC      INNER\n        RETURN\nINNER   RETURN\nONE     DEC     1\n"
        self.js("await workbench.openDoc({name: 'lost.agc', source: arguments[0], steps: 40})", source)
        self.wait("return workbench.axis.notes.length && document.querySelector('#now .badge.odd')")
        at = self.js("return workbench.axis.notes[0].step")
        x, y = self.js("const {axis} = workbench, box = axis.root.getBoundingClientRect(); return [box.left + axis.x(arguments[0]), box.top + axis.root.clientHeight - 29]", at)
        browser.pointer((int(x), int(y)), "down", "up")
        self.rest(f"workbench.session.p === {at}")
        self.assertIn("executed in erasable memory", browser.text("#said"))
        browser.click("#now .badge.odd")
        self.rest("document.getElementById('now').textContent.includes('RETURN') && document.querySelector('.why h2')?.textContent.includes('Why is Q')")

    def test_a_listing_is_opened_as_the_source_that_it_shows(self):
        self.js("await workbench.openPicked([new File([arguments[0]], 'names.lst')])", read(f"{ROOT}/examples/names.lst"))
        self.assertEqual(self.js("return [workbench.S.name, workbench.S.isBuilt, workbench.editor.text.trimEnd()]"), ["names.agc", True, read(f"{ROOT}/examples/names.agc").rstrip()])

    def test_a_line_has_a_menu(self):
        browser = self.browser
        browser.keys("Home")
        self.wait("return workbench.session.p === 0 && !workbench.S.isMoving")
        line = self.js("return workbench.S.names.lineOf.get('02,4104')")
        self.js("workbench.editor.showLine(arguments[0])", line)
        seen = []
        for name in ("On to its next execution", "On to its next execution", "Back to the one before"):
            self.menu_of(f'#editor [data-line="{line}"] .g')
            self.choose(name)
            self.wait("return !workbench.S.isMoving")
            self.wait("return document.querySelector('#editor .is-now')?.textContent.includes('4104')")
            time.sleep(0.2)
            seen.append(self.at()[0])
        self.assertEqual(seen[2], seen[0])
        self.assertLess(seen[0], seen[1])

    def menu_of(self, selector):
        # (a right click of WebKit's driver opens no menu of a page)
        if self.browser_class is driver.WebKit:
            self.js("document.querySelector(arguments[0]).dispatchEvent(new MouseEvent('contextmenu', {bubbles: true, cancelable: true}))", selector)
        else:
            self.browser.pointer(self.place(selector), "down", "up", button=2)

    def choose(self, name):
        self.wait("return !document.getElementById('context').hidden")
        self.js("[...document.querySelectorAll('#context b')].find(it => it.textContent === arguments[0]).closest('button').click()", name)

    def test_why_a_line_is_not_executed(self):
        source = "        SETLOC  4000\n        CAF     ONE\n        EXTEND\n        BZF     ON\n        TCF     DONE\nON      CA      ONE\nDONE    TCF     DONE\nONE     OCT     1\n"
        self.js("await workbench.openDoc({name: 'never.agc', source: arguments[0], steps: 20})", source)
        self.menu_of('#editor [data-line="6"] .g')
        self.choose("Why is it not executed?")
        self.wait("return document.getElementById('said').textContent.includes('TCF DONE, on line 5, is the last before line 6')")
        self.wait("return workbench.S.picture.where.line === 5")

    def test_a_fault_is_explained_where_the_pointer_rests_on_it(self):
        self.js("const {editor} = workbench; editor.area.focus(); editor.area.setSelectionRange(0, 0); document.execCommand('insertText', false, '        CB      SUM\\n')")
        self.wait("return document.querySelector('#editor .told:not(.note)')")
        self.browser.pointer(self.place("#editor .told:not(.note)", 40, 9), self.place("#editor .told:not(.note)", 44, 9))
        self.wait("return !document.getElementById('hover').hidden && document.getElementById('hover').textContent.length > 60")

    def test_what_the_program_takes_has_a_button(self):
        self.browser.click('[data-tab="dsky"]')
        self.assertIn("TIME3 PINC", self.browser.text(".quick"))
        self.js("await workbench.seek(30)")
        self.browser.click(".quick .small")
        self.wait("return document.querySelector('.press')?.textContent.includes('TIME3 PINC') && !workbench.S.isMoving")
        self.browser.click(".presses .undo")
        self.wait("return !document.querySelector('.press') && !workbench.S.isMoving")


class Used(Workbench):
    """What people stumbled over, who had never seen the page: a student, a lecturer, one who dislikes typing."""

    def test_a_click_below_a_text_enters_it(self):
        browser = self.browser
        self.js("await workbench.openDoc({name: 'mine.agc', source: '        SETLOC  4000\\nDONE    TCF     DONE\\n', steps: 20})")
        for name in ("tests", "feed"):
            browser.click(f'[data-file="{name}"]')
            x, y = self.place(f"#{name}", 300, 160)
            browser.pointer((x, y), "down", "up")
            browser.keys(*"# my text")
            self.assertEqual(self.js(f"return workbench.{name}.text"), "# my text")
        self.assertEqual(self.js("return [workbench.editor.text, workbench.S.isPacing]"), ["        SETLOC  4000\nDONE    TCF     DONE\n", False])

    def test_what_a_text_of_tests_claims_is_green_and_red(self):
        browser = self.browser
        self.wait("return document.querySelector('[data-tab=\"tests\"] i')?.textContent === '1/2'")
        browser.click('[data-tab="tests"]')
        self.assertIn("CHANNEL 012 50D THEN NOTHING: it is 00075 (61) after step 47", browser.text(".test.bad"))
        browser.click(".test.bad")
        self.rest("workbench.session.p === 47 && document.querySelector('.why h2')?.textContent.includes('CH012 61')")
        # (no result stays of what was built before)
        self.take(MENDED, 60)
        self.wait("return document.querySelector('[data-tab=\"tests\"] i')?.textContent === '2/2'")
        # (a text of the page needs no lines that name its files)
        self.js("workbench.tests.text = 'TEST a word\\n  CHANNEL 12 50D\\n  ALWAYS TICKS < 2\\nTEST two\\n  CHANEL 12 0\\n'; workbench.tests.area.dispatchEvent(new Event('input'))")
        self.wait("return document.querySelector('.tests-head .bad')")
        self.assertIn("Line 5 of the tests: TEST, CHANNEL, AT, ALWAYS, NEVER, CALLS, NOTES, CHECK or COVERED is asked for; CHANNEL is near", browser.text(".tests-head"))
        self.assertEqual(self.js("const it = workbench.tests.faults.get(5)[0]; return [it.column, it.length]"), [3, 6])
        self.js("workbench.tests.text = 'TEST a word\\n  CHANNEL 12 50D\\nTEST two\\n  CHANNEL 13 1\\n'; workbench.tests.area.dispatchEvent(new Event('input'))")
        self.wait("return document.querySelector('[data-tab=\"tests\"] i')?.textContent === '1/2'")
        self.assertIn("nothing came", browser.text(".test.bad"))

    def test_files_are_taken_with_their_tests_and_as_many_steps_as_these_need(self):
        room = f"{ROOT}/examples/course/12"
        files = [[name, read(f"{room}/{name}")] for name in ("wrong_1.agc", "exercise.feed", "exercise.test")]
        picked = "await workbench.openPicked(arguments[0].map(([name, text]) => new File([text], name)))"
        self.js(picked, files)
        self.assertEqual(self.at(), [4000, 4000])
        self.wait("return document.querySelector('[data-tab=\"tests\"] i')?.textContent === '0/1'")
        # (what stands here already is no second one)
        kept = self.js("return workbench.storage.all().length")
        self.js(picked, files)
        self.assertEqual(self.js("return workbench.storage.all().length"), kept)
        self.js(picked, [["a.agc", "        SETLOC  4000\n"], ["b.agc", "        SETLOC  4000\n"]])
        self.assertIn("b.agc was not opened", self.browser.text("#said"))

    def test_what_is_said_is_so(self):
        self.js("await workbench.openPicked([new File(['        CA      NOWHERE\\n'], 'bad.agc')])")
        self.assertIn("errors", self.browser.text("#said"))
        self.assertEqual(self.js("return document.querySelector('#state .cols').getClientRects().length"), 0)
        self.js("await workbench.openDoc({name: 'good.agc', source: '        SETLOC  4000\\nDONE    TCF     DONE\\n', steps: 20}); const {area} = workbench.editor; area.focus(); area.setSelectionRange(area.value.length, area.value.length); document.execCommand('insertText', false, '        CA      NOWHERE')")
        self.wait("return document.getElementById('said').textContent.includes('NOWHERE')")
        self.js("workbench.editor.area.select(); document.execCommand('insertText', false, '        SETLOC  4000\\nDONE    TCF     DONE\\n')")
        self.wait("return !document.getElementById('said').textContent")

    def test_nothing_moves_away_below_the_pointer(self):
        browser = self.browser
        top = "return Math.round(document.getElementById('tabs').getBoundingClientRect().top)"
        browser.click('[data-tab="dsky"]')
        stands = self.js(top)
        for name in ("output", "compare", "console", "steps", "tests"):
            browser.click(f'[data-tab="{name}"]')
            self.assertEqual(self.js(top), stands, name)
        left = "return Math.round(document.querySelector('[data-go=\"step\"]').getBoundingClientRect().left)"
        stands = self.js(left)
        self.js("workbench.editor.area.focus(); document.execCommand('insertText', false, '# mine\\n')")
        self.wait("return document.getElementById('run').textContent.startsWith('Build')")
        self.assertEqual(self.js(left), stands)

    def test_a_program_is_begun_and_named(self):
        browser = self.browser
        self.menu("New")
        self.wait("return workbench.S.name === 'untitled.agc' && document.activeElement === workbench.editor.area")
        browser.keys(*"CAF", "Tab", *"ONE")
        self.assertEqual(self.js("return workbench.editor.text"), "        SETLOC  4000\n        CAF     ONE")
        self.menu("Rename")
        self.wait("return document.activeElement.classList.contains('finder')")
        browser.keys(*"sums", "Enter")
        self.wait("return document.getElementById('name').textContent === 'sums.agc' && !document.getElementById('dialog').open")
        self.wait("return workbench.storage.all().some(it => it.name === 'sums.agc' && it.source.endsWith('ONE'))")

    def menu(self, name):
        self.browser.click("#menu-open")
        self.js("[...document.querySelectorAll('#menu button')].find(it => it.textContent.startsWith(arguments[0])).click()", name)

    def test_a_lesson_begins_at_its_start_and_what_idles_is_narrow(self):
        self.browser.click("#start1")
        self.wait("return workbench.S.name === 'lesson_01.agc' && document.body.dataset.ready && !workbench.S.isMoving && workbench.axis.survey?.kind === 'exact'")
        self.assertEqual(self.at(), [0, 60])
        self.assertEqual(self.js("return document.querySelectorAll('.cell.changed').length"), 0)
        self.browser.click("#start0")
        self.rest("workbench.session.p === 1")
        # (DONE TCF DONE, from step 7 on)
        self.wait("return workbench.axis.survey.idle === 6 && workbench.axis.fold === 12")
        self.assertEqual(self.js("const {axis} = workbench; return Array.from({length: 61}, (_, i) => axis.step(axis.x(i))).every((it, i) => it === i)"), True)
        self.assertGreater(self.js("const {axis} = workbench; return (axis.x(12) - axis.left) / (axis.right - axis.left)"), 0.85)

    def test_the_step_that_came_before_tells_why(self):
        self.js("await workbench.seek(22)")
        self.browser.click("#now .did")
        self.wait("return document.querySelector('.why h2')?.textContent.includes('Why is SUM 1?')")

    def test_why_a_line_is_not_executed_stands_in_the_pane(self):
        self.js("await workbench.openDoc({name: 'never.agc', source: '        SETLOC  4000\\n        TCF     DONE\\n        CA      ONE\\nDONE    TCF     DONE\\nONE     OCT     1\\n', steps: 20})")
        self.js("document.querySelector('#editor [data-line=\"3\"] .g').dispatchEvent(new MouseEvent('contextmenu', {bubbles: true, cancelable: true})); [...document.querySelectorAll('#context b')].find(it => it.textContent === 'Why is it not executed?').closest('button').click()")
        self.wait("return document.querySelector('.told-why')?.textContent.includes('TCF DONE, on line 2, is the last before line 3')")
        self.browser.click(".told-why .small")
        self.wait("return document.querySelector('#editor .is-pointed')?.dataset.line === '2'")

    def test_before_an_audience_the_chain_has_the_room_and_a_presenter_steps(self):
        browser = self.browser
        browser.size(1024, 768)
        self.js("document.activeElement.blur(); await workbench.seek(10)")
        browser.keys("l")
        browser.keys("\ue00f")
        self.rest("workbench.session.p === 11")
        browser.keys("\ue00e")
        self.rest("workbench.session.p === 10")
        browser.click('[data-tab="output"]')
        # (what stands above has its height once the step's sentence has come)
        self.wait("return !document.querySelector('.pane.why').getClientRects().length && document.querySelector('#regs').getBoundingClientRect().bottom < document.querySelector('.pane.state').getBoundingClientRect().bottom")
        browser.click("#tab-output tbody tr")
        self.wait("return document.querySelector('.why h2') && document.querySelector('.pane.why').getClientRects().length")
        self.assertLess(self.js("return document.querySelector('.dock').offsetHeight"), 60)
        self.js("document.activeElement.blur()")
        browser.keys("l")
        browser.size(1280, 800)

    def test_a_finger_does_all(self):
        if self.browser_class is not driver.Chromium:
            self.skipTest("fingers are Chromium's alone")
        browser = self.browser
        browser.chrome("Emulation.setTouchEmulationEnabled", enabled=True, maxTouchPoints=5)
        browser.size(390, 844, 1, True)
        self.open()
        self.tap("#rooms [data-room='state']")
        self.tap('#words [data-cell="SUM"]', rest=800)
        self.wait("return !document.getElementById('context').hidden")
        # (what closes a menu does nothing else)
        self.tap('#words [data-cell="COUNT"]')
        self.wait("return document.getElementById('context').hidden")
        self.assertEqual(self.js("return [document.body.dataset.room, document.querySelector('.why h2')]"), ["state", None])
        self.tap("#counts")
        self.wait("return !document.getElementById('context').hidden")
        self.tap("#context .item:nth-child(2) button")
        self.assertEqual(self.js("return document.getElementById('count').value"), "100")
        self.tap("#run")
        self.rest("workbench.session.n === 160")
        self.tap("[data-go='prev']")
        self.wait("return !document.getElementById('toast').hidden && document.getElementById('toast').textContent.includes('No breakpoint is set')")
        # (on its side it has one room at a time, too; and so has a screen on which all is twice as large)
        for width, height in ((844, 390), (640, 400)):
            browser.size(width, height, 1, True)
            self.wait("return document.body.classList.contains('low') && document.querySelector('main').offsetHeight > 180")
            self.assertEqual(self.js("return document.documentElement.scrollWidth <= innerWidth"), True)
        browser.chrome("Emulation.setTouchEmulationEnabled", enabled=False)
        browser.size(1280, 800)

    def tap(self, selector, rest=40):
        x, y = self.place(selector, 12, 12)
        finger = [{"type": "pointerMove", "x": x, "y": y, "duration": 0, "origin": "viewport"}, {"type": "pointerDown", "button": 0}, {"type": "pause", "duration": rest}, {"type": "pointerUp", "button": 0}]
        self.browser.ask("POST", "/actions", {"actions": [{"type": "pointer", "id": "finger", "parameters": {"pointerType": "touch"}, "actions": finger}]})


class Handed(Workbench):
    def test_a_handout_of_a_thousand_steps_stands_by_itself(self):
        self.js("await workbench.openDoc({...workbench.examples.find(it => it.name === 'waitlist.agc'), steps: 1000}, {isExample: true}); await workbench.seek(500)")
        name = self.js("return workbench.S.names.erasable.find(it => workbench.S.picture.words[it.at] !== '00000').name")
        links = self.js("await workbench.why(arguments[0]); return workbench.chain.links.map(it => it.t)", name)
        text = self.js("return workbench.handout()")
        figure(f"a handout of 1,000 steps has {len(text.encode())} bytes")
        self.assertLess(len(text.encode()), 100_000)
        self.assertNotRegex(text, r"(?:src|href)=|https?:")
        path = f"{ROOM.name}/handout.html"
        with open(path, "w", encoding="utf-8") as file:
            file.write(text)
        self.browser.open("about:blank")
        self.browser.open(driver.url_of(path))
        self.assertEqual(self.js("return [document.getElementById('p').textContent, document.getElementById('n').textContent]"), ["500", "1000"])
        told = self.js("return [...document.querySelectorAll('#why button span:first-child')].map(it => Number(it.textContent))")
        self.assertEqual(told[: len(links)], links)
        self.browser.keys("Left")
        self.assertEqual(self.js("return document.getElementById('p').textContent"), "499")
        self.js("document.querySelector('#why button').click()")
        self.assertEqual(self.js("return Number(document.getElementById('p').textContent)"), links[0])

    def test_the_line_of_time_and_the_chain_are_pictures(self):
        self.js("await workbench.why('SUM'); await new Promise(done => setTimeout(done, 300))")
        self.assertRegex(self.js("return workbench.axis.picture().toDataURL('image/png')"), r"^data:image/png;base64,.{4000}")
        said = self.js("const text = workbench.svg(), made = new DOMParser().parseFromString(text, 'image/svg+xml'); return [made.querySelector('parsererror')?.textContent ?? '', made.querySelectorAll('text').length, made.documentElement.textContent]")
        self.assertEqual(said[0], "")
        self.assertGreater(said[1], 20)
        self.assertIn("TS SUM", said[2])


class Ropes(Workbench):
    def test_images_that_are_dropped_are_told_of_and_compared(self):
        browser = self.browser
        self.js("""
            const image = workbench.session.image.slice(), other = image.slice(), transfer = new DataTransfer();
            other[2 * 0o104] ^= 6; // (two bits, so that the parity stays)
            for (const [name, it] of [['one.rope', image], ['other.rope', other]]) transfer.items.add(new File([it], name));
            dispatchEvent(new DragEvent('drop', {dataTransfer: transfer, bubbles: true, cancelable: true}))""")
        self.wait("return document.querySelector('#dialog pre')?.textContent.includes('02')")
        for name, said in (("parity", ""), ("words", "TS"), ("compare other.rope", "COUNT 1")):
            self.js("[...document.querySelectorAll('#dialog .small')].find(it => it.textContent === arguments[0]).click()", name)
            self.wait("return document.querySelector('#dialog pre').textContent.length > 0 && !document.querySelector('#dialog pre').textContent.startsWith('Starting')")
            self.assertIn(said, browser.text("#dialog pre"))
        self.js("[...document.querySelectorAll('#dialog .small')].find(it => it.textContent === 'Open as a source').click()")
        self.wait("return workbench.S.name === 'one.agc' && workbench.S.isBuilt")


class Long(Workbench):
    def test_the_page_is_alive_while_millions_of_steps_run(self):
        self.js("await workbench.openDoc({name: 'endless.agc', source: arguments[0], steps: 100})", ENDLESS)
        self.js("window.frames_ = []; let last = performance.now(); const frame = (now) => { window.frames_.push(now - last); last = now; if (!window.isOver) requestAnimationFrame(frame) }; requestAnimationFrame(frame)")
        began = time.monotonic()
        self.browser.click("#count")
        self.js("document.getElementById('count').value = String(arguments[0])", STEPS)
        self.browser.click("#run")
        self.browser.wait(f"return workbench.session.n >= {STEPS + 100} && !workbench.S.isMoving", 5 * MOST_SECONDS)
        took = time.monotonic() - began
        frames = sorted(self.js("window.isOver = true; return window.frames_.slice(2)"))
        self.assertGreater(len(frames), 3)
        look = self.js("const times = []; for (let i = 0; i < 7; i += 1) { const began = performance.now(); await workbench.session.look(); times.push(performance.now() - began) } return times.sort((a, b) => a - b)[3]")
        seek = self.js("const began = performance.now(); await workbench.session.go('goto', workbench.session.n >> 1); await workbench.session.look(); const first = performance.now() - began, again = performance.now(); await workbench.session.go('back', 1); await workbench.session.look(); return [first, performance.now() - again]")
        figure(f"{STEPS:,} steps {took:.1f} s, {len(frames)} frames, median {frames[len(frames) // 2]:.1f} ms, 99 % below {frames[len(frames) * 99 // 100]:.1f}, worst {frames[-1]:.0f}; a look {look:.1f} ms; to the middle {seek[0]:.0f} ms, a step back {seek[1]:.1f} ms")
        self.assertEqual(self.js("const {p, n} = workbench.session; return p === (n >> 1) - 1"), True)

    def test_the_line_of_time_passes_over_nothing_however_long(self):
        # (COUNT goes from 0 to 16383 again and again, and a key comes in once; of 600,000 steps a part has some hundred)
        self.js("await workbench.openDoc({name: 'endless.agc', source: arguments[0], feed: '700001 CHAN 15 21\\n', steps: 600000})", ENDLESS)
        self.wait("return workbench.axis.survey?.kind === 'summed' && workbench.axis.survey.soFar === workbench.session.n")
        every, inputs, bands, last = self.js("const {every, inputs, bands, curve} = workbench.axis.survey; return [every, inputs, bands, curve.at(-1)]")
        self.assertEqual([it[2] for it in inputs], [1])
        at = self.js("await workbench.seek(arguments[0] - 1); const it = await workbench.session.nearest('chan 15 21', false); return it", inputs[0][0])
        self.assertTrue(inputs[0][0] <= at < inputs[0][0] + every, (inputs, at))
        self.assertEqual([min(int(it[2], 8) for it in bands), max(int(it[3], 8) for it in bands)], [0, 0o37777])
        self.assertEqual(last[1], self.js("await workbench.seek(600000); return workbench.S.picture.words[64]"))
        # (closer, each step is shown)
        self.js("workbench.axis.show([arguments[0] - 20, arguments[0] + 20])", at)
        self.wait("return workbench.axis.survey.kind === 'exact'")
        self.assertEqual(self.js("return workbench.axis.survey.inputs[0]"), [at, "CHAN 015 00021 ASKS KEYRUPT1"])

    def test_words_put_out_are_read_once_and_their_last_are_kept(self):
        self.js("await workbench.openDoc({name: 'talking.agc', source: arguments[0], steps: 100})", TALKING)
        took = self.js("const began = performance.now(); await workbench.session.go('step', 999900); return performance.now() - began")
        figure(f"a million steps with 200,000 words put out: {took:.0f} ms")
        # (COUNT is the number of the word, by 15 bits without the sign)
        count, kept, first, last = self.js("const {outputs} = workbench.session, {cycles, channels, words} = outputs; return [outputs.count, cycles.length, ...[0, cycles.length - 1].map(i => [cycles[i], channels[i], words[i]])]")
        self.assertEqual((count, last), (200_000, [1_599_999, 5, 200_000 % 0o40000]))
        self.assertGreaterEqual(kept, 50_000)
        self.assertEqual((last[0] - first[0], first[2]), ((kept - 1) * 8, (count - kept + 1) % 0o40000))
        self.js("await workbench.seek(1000000)")
        self.browser.click('[data-tab="output"]')
        self.wait("return document.querySelector('#tab-output').textContent.includes('200 of 200,000 words')")
        self.js("await workbench.seek(500000)")
        self.wait("return document.querySelector('#tab-output').textContent.includes('200 of 200,000 words, the first that the page still has')")
        # (other sessions over the run count them)
        self.js("await workbench.session.survey({from: 0, to: 1000000, cell: 'COUNT', buckets: 400})")
        for which in ("views[0]", "surveyor"):
            self.assertRegex(self.js(f"const it = workbench.session.{which}; await it.ask(`goto ${{it.n}}`); return (await it.ask('step 20'))[0]"), r"^WORDS 4\nAT \d+ ")
        # (nor are they read where notes alone are asked for)
        told = self.js("const {status, output, errors, failed} = await workbench.engine.call(['run', '--end', 'my.agc', 'my.feed', '60000'], {'my.agc': arguments[0], 'my.feed': ''}, '', {unheard: 'output', most: 1000}); return [status, output, errors.split('\\n').length, failed]", TALKING)
        self.assertEqual(told, [0, "", 2, ""])
        self.assertEqual(self.js("return await workbench.session.notes()"), [])
        # (which the run's own cannot be told to do)
        self.js("document.querySelector('[data-tab=\"console\"]').click(); const field = document.querySelector('#tab-console input'); field.value = 'quiet on'; field.form.requestSubmit()")
        self.wait("return document.querySelector('#tab-console .log').textContent.includes('reads each word')")
        self.assertEqual(self.js("await workbench.session.go('run', 10); return workbench.session.outputs.count"), 200_002)

    def test_run_goes_to_the_end_first(self):
        self.js("await workbench.seek(20)")
        self.browser.click("#run")
        self.rest("workbench.session.p === 60 && workbench.session.n === 60")
        self.assertIn("Run makes 60 steps more", self.browser.text("#said"))
        self.browser.click("#run")
        self.rest("workbench.session.n === 120")

    def test_an_endless_run_is_stopped_and_the_run_goes_on(self):
        self.js("await workbench.openDoc({name: 'endless.agc', source: arguments[0], steps: 100})", ENDLESS)
        self.js("document.getElementById('count').value = '900g'")
        self.browser.click("#run")
        self.wait("return !document.getElementById('stop').hidden && workbench.session.n > 100000")
        began = time.monotonic()
        self.browser.click("#stop")
        self.wait("return !workbench.S.isMoving")
        figure(f"an endless run ends {(time.monotonic() - began) * 1000:.0f} ms after the click")
        n = self.at()[1]
        self.js("document.getElementById('count').value = '10'")
        self.browser.click("#run")
        self.wait(f"return workbench.session.n === {n + 10} && !workbench.S.isMoving")

    def test_a_source_of_ten_million_bytes_leaves_the_page_alive(self):
        lines, opened = self.js("const began = performance.now(); await workbench.openPicked([new File([('        CA      0'.padEnd(110, ' ') + '\\n').repeat(95000)], 'great.agc')]); return [workbench.editor.lines.length, performance.now() - began]")
        self.assertEqual(lines, 95001)
        self.wait("return document.getElementById('faults').textContent.includes('error')")
        key = self.js("const {editor} = workbench; editor.area.focus(); const times = []; for (let i = 0; i < 5; i += 1) { const began = performance.now(); document.execCommand('insertText', false, 'X'); times.push(performance.now() - began) } return times.sort((a, b) => a - b)[2]")
        figure(f"10 MB: open {opened:.0f} ms, a key {key:.0f} ms")
        self.wait("return !document.getElementById('banner').hidden")
        self.assertIn("full", self.browser.text("#banner"))
        self.js("await workbench.openDoc({name: 'small.agc', source: arguments[0], steps: 10})", ENDLESS)


class Kept(Workbench):
    def test_what_is_typed_is_there_after_a_reload_in_the_midst_of_a_run(self):
        self.js("const {editor} = workbench; editor.area.focus(); editor.area.setSelectionRange(0, 0); document.execCommand('insertText', false, '# mine\\n')")
        self.js("document.getElementById('count').value = '500m'")
        self.browser.click("#run")
        self.wait("return workbench.session.n > 1000")
        self.browser.ask("POST", "/refresh")
        self.browser.wait("return window.workbench && workbench.editor.text.startsWith('# mine')", MOST_SECONDS)

    def test_a_full_store_is_told_and_nothing_is_lost(self):
        self.js("let text = 'x'.repeat(1 << 19); try { for (let i = 0; ; i += 1) localStorage.setItem('fill' + i, text) } catch {} try { for (let i = 0; ; i += 1) localStorage.setItem('little' + i, 'x'.repeat(200)) } catch {}")
        self.js("const {editor} = workbench; editor.area.focus(); document.execCommand('insertText', false, '# ' + 'more '.repeat(400) + '\\n')")
        self.wait("return !document.getElementById('banner').hidden")
        self.assertIn("full", self.browser.text("#banner"))
        self.js("localStorage.clear(); workbench.editor.area.focus(); document.execCommand('insertText', false, '# still here\\n')")
        self.wait("return Object.keys(localStorage).some(it => it.startsWith('agcws:doc:') && localStorage[it].includes('still here'))")

    def test_two_tabs_never_write_over_one_another(self):
        browser = self.browser
        self.js("workbench.editor.area.focus(); document.execCommand('insertText', false, '# first\\n')")
        mine = self.wait("return Object.keys(localStorage).find(it => it.startsWith('agcws:doc:'))")
        first = browser.tabs()[0]
        browser.new_tab()
        try:
            browser.open(self.url)
            browser.wait(READY, MOST_SECONDS)
            self.js("const id = arguments[0].slice(10); await workbench.openDoc(workbench.storage.all().find(it => it.id === id), {id})", mine)
            self.js("workbench.editor.area.focus(); document.execCommand('insertText', false, '# second\\n')")
            self.wait("return Object.values(localStorage).some(it => it.includes('# second'))")
            browser.go(first)
            self.wait("return !document.getElementById('banner').hidden")
            self.js("workbench.editor.area.focus(); document.execCommand('insertText', false, '# third\\n')")
            self.wait("return Object.values(localStorage).some(it => it.includes('# third'))")
            self.assertTrue(self.js("return Object.values(localStorage).some(it => it.includes('# second'))"))
        finally:
            for tab in browser.tabs():
                if tab != first:
                    browser.go(tab)
                    browser.ask("DELETE", "/window")
            browser.go(first)

    def test_a_link_holds_the_whole_task(self):
        hash_ = self.js("await workbench.session.breakpoint('at LOOP'); await workbench.seek(22); await workbench.why('SUM'); document.getElementById('menu-open').click(); [...document.querySelectorAll('#menu b')].find(it => it.textContent === 'Copy a link to this').closest('button').click(); return new Promise(done => { const look = () => location.hash ? done(location.hash) : setTimeout(look, 20); look() })")
        figure(f"a link has {len(hash_)} signs")
        self.open(hash_)
        self.assertEqual(self.at(), [22, 60])
        self.assertEqual(self.js("return workbench.session.breaks"), ["at 02,4104"])
        self.wait("return document.querySelector('.why h2')?.textContent.includes('SUM')")

    def test_a_spoilt_link_is_told_and_the_page_goes_on(self):
        for hash_ in ("#task=AAAA", "#task=%%%", "#task=" + "x" * 5000, "#task=q1YKyczNVrJSSs7PLcgvzsxLVaoFAA"):
            self.open(hash_)
            self.assertIn("spoilt", self.browser.text("#banner"))
            self.assertEqual(self.at(), [60, 60])


# Rules that a script can check: names, roles, what the keyboard reaches, and contrast as the colours are computed.
RULES = r"""
const faults = [], seen = (it) => { const box = it.getBoundingClientRect(), style = getComputedStyle(it); return box.width > 0 && box.height > 0 && style.visibility !== 'hidden' && !it.closest('[hidden], [aria-hidden="true"], .defs'); };
const nameOf = (it) => (it.getAttribute('aria-label') || it.getAttribute('title') || it.textContent || (it.labels?.[0]?.textContent ?? '') || it.placeholder || '').trim();
const say = (it) => `${it.tagName.toLowerCase()}${it.id ? '#' + it.id : ''}.${it.className?.baseVal ?? it.className} "${(it.textContent || '').trim().slice(0, 30)}"`;
for (const it of document.querySelectorAll('button, input, select, textarea, [tabindex], [role]')) if (seen(it) && it.getAttribute('role') !== 'none' && !it.matches('div[role=list], tr, .editor, [role=listitem], [role=status], [role=alert]') && !nameOf(it)) faults.push('no name: ' + say(it));
for (const it of document.querySelectorAll('[tabindex]')) if (it.tabIndex > 0) faults.push('an order of its own: ' + say(it));
for (const it of document.querySelectorAll('[id]')) if (document.querySelectorAll('#' + CSS.escape(it.id)).length > 1) faults.push('two of one id: ' + say(it));
for (const it of document.querySelectorAll('[aria-controls]')) if (!document.getElementById(it.getAttribute('aria-controls'))) faults.push('controls nothing: ' + say(it));
for (const it of document.querySelectorAll('button button, a button, button a, [role=tab] button')) faults.push('one within another: ' + say(it));
const numbers = (text) => text.match(/[\d.]+/g).map(Number), rgb = (text) => { if (text.startsWith('color(srgb')) { const [r, g, b, a = 1] = numbers(text.slice(10)); return [r * 255, g * 255, b * 255, a]; } const [r, g, b, a = 1] = numbers(text); return [r, g, b, a]; };
const over = ([r, g, b, a], below) => [r * a + below[0] * (1 - a), g * a + below[1] * (1 - a), b * a + below[2] * (1 - a), 1];
const light = ([r, g, b]) => [r, g, b].map((it) => it / 255).map((it) => (it <= 0.03928 ? it / 12.92 : ((it + 0.055) / 1.055) ** 2.4)).reduce((sum, it, i) => sum + it * [0.2126, 0.7152, 0.0722][i], 0);
const ratio = (a, b) => { const [x, y] = [light(a), light(b)].sort((p, q) => q - p); return (x + 0.05) / (y + 0.05); };
const behind = (it) => { const layers = []; for (let at = it; at; at = at.parentElement) { const colour = rgb(getComputedStyle(at).backgroundColor); if (colour[3] > 0) layers.push(colour); if (colour[3] === 1) break; } return layers.reverse().reduce((below, colour) => over(colour, below), [255, 255, 255, 1]); };
const walker = document.createTreeWalker(document.body, NodeFilter.SHOW_TEXT);
const told = new Set();
for (let node; (node = walker.nextNode());) {
  const it = node.parentElement;
  if (!node.textContent.trim() || it.closest('script, style, textarea, [hidden], .keypad, option, .dsky') || !it.getClientRects().length) continue;
  const style = getComputedStyle(it), found = ratio(over(rgb(style.color), behind(it)), behind(it)), size = parseFloat(style.fontSize), least = size >= 24 || (size >= 18.66 && Number(style.fontWeight) >= 700) ? 3 : 4.5;
  const key = it.className + style.color + behind(it);
  if (found < least - 0.02 && !told.has(key)) { told.add(key); faults.push(`contrast ${found.toFixed(2)}: ${say(it)} ${style.color} on ${behind(it).map(Math.round)}`); }
}
return faults;
"""


# What is seen of red, green and blue (linear) by those who lack one of the three (Machado, Oliveira and Fernandes, 2009).
EYES = {
    "all": [(1, 0, 0), (0, 1, 0), (0, 0, 1)],
    "without red": [(0.152286, 1.052583, -0.204868), (0.114503, 0.786281, 0.099216), (-0.003882, -0.048116, 1.051998)],
    "without green": [(0.367322, 0.860646, -0.227968), (0.280085, 0.672501, 0.047413), (-0.011820, 0.042940, 0.968881)],
    "without blue": [(1.255528, -0.076749, -0.178779), (-0.078411, 0.930809, 0.147602), (0.004733, 0.691367, 0.303900)],
}


def lab(colour, eyes):
    """A colour, as #rrggbb, as those eyes see it: lightness and two hues (CIELAB)."""
    parts = [int(colour[at : at + 2], 16) / 255 for at in (1, 3, 5)]
    linear = [it / 12.92 if it <= 0.04045 else ((it + 0.055) / 1.055) ** 2.4 for it in parts]
    r, g, b = (min(1, max(0, sum(a * it for a, it in zip(row, linear)))) for row in eyes)
    x, y, z = (it ** (1 / 3) if it > 0.008856 else 7.787 * it + 16 / 116 for it in ((0.4124 * r + 0.3576 * g + 0.1805 * b) / 0.95047, 0.2126 * r + 0.7152 * g + 0.0722 * b, (0.0193 * r + 0.1192 * g + 0.9505 * b) / 1.08883))
    return 116 * y - 16, 500 * (x - y), 200 * (y - z)


class Reach(Workbench):
    def test_names_roles_order_and_contrast_in_all_views(self):
        for theme in ("light", "dark"):
            self.js("document.documentElement.dataset.theme = arguments[0]; await workbench.why('SUM'); await workbench.seek(22)", theme)
            for tab in ("steps", "dsky", "output", "memory", "tests", "compare", "console"):
                self.js("document.querySelector(`[data-tab=\"${arguments[0]}\"]`).click(); await new Promise(done => setTimeout(done, 120))", tab)
                with self.subTest(theme=theme, tab=tab):
                    self.assertEqual(self.js(RULES), [])
            for button in ("menu-open", "more", "keys", "find"):
                self.js("document.getElementById(arguments[0]).click(); await new Promise(done => setTimeout(done, 60))", button)
                with self.subTest(theme=theme, menu=button):
                    self.assertEqual(self.js(RULES), [])
                self.js("document.getElementById('dialog').close?.(); document.body.click()")

    def test_those_who_see_some_colours_alike_tell_the_six_meanings_apart(self):
        for theme in ("light", "dark"):
            told = self.js("document.documentElement.dataset.theme = arguments[0]; const style = getComputedStyle(document.documentElement); return ['now', 'rupt', 'in', 'out', 'chain', 'way'].map(it => style.getPropertyValue(`--${it}`).trim())", theme)
            for eyes, matrix in EYES.items():
                seen = [lab(it, matrix) for it in told]
                least = min(math.dist(a, b) for a, b in itertools.combinations(seen, 2))
                with self.subTest(theme=theme, eyes=eyes):
                    self.assertGreater(least, 15)

    def test_tab_reaches_everything_in_order_and_is_seen(self):
        self.js("document.activeElement.blur(); scrollTo(0, 0)")
        reached, unseen = [], []
        for _ in range(70):
            self.browser.keys("Tab")
            told = self.js("const it = document.activeElement; if (it === document.body) return null; const style = getComputedStyle(it), box = it.closest('.editor') ? getComputedStyle(it.closest('.editor')) : style; return [it.id || it.dataset.go || it.dataset.tab || it.dataset.file || it.dataset.cell || it.className || it.tagName, style.outlineStyle !== 'none' && parseFloat(style.outlineWidth) > 0 || box.boxShadow !== 'none' || style.borderBottomColor !== 'rgba(0, 0, 0, 0)' && it.id === 'position' || it.closest('.steps') !== null]")
            if told is None:
                break
            if told[0] in [it[0] for it in reached]:
                # (Tab indents in a text; Escape leaves it)
                if self.js("return document.activeElement.tagName === 'TEXTAREA'"):
                    self.browser.keys("Escape")
                    continue
                break
            reached.append(told)
            unseen += [] if told[1] else [told[0]]
            if self.js("return document.activeElement.tagName === 'TEXTAREA'"):
                self.browser.keys("Escape")
        names = [it[0] for it in reached]
        self.assertEqual(unseen, [])
        for wanted in ("menu-open", "run", "count", "first", "last", "pace", "keys", "position", "cell", "axis", "source", "A", "split", "steps"):
            self.assertIn(wanted, names)
        order = [names.index(it) for it in ("menu-open", "run", "first", "pace", "position", "axis", "source", "A", "split", "steps")]
        self.assertEqual(order, sorted(order))

    def test_motion_is_left_out_where_that_is_wished(self):
        self.browser.media(prefers_reduced_motion="reduce")
        self.assertEqual(self.js("document.querySelector('.toggle').setAttribute('aria-pressed', 'true'); return getComputedStyle(document.querySelector('.toggle .lamp')).animationName"), "none")
        self.browser.media()

    def test_nothing_is_cut_off_from_360_to_2560_pixels_and_at_twice_the_size(self):
        for width, height in ((360, 740), (640, 400), (800, 800), (1280, 800), (1920, 1080), (2560, 1300)):
            self.browser.size(width, height)
            self.open()
            with self.subTest(width=width):
                self.assertEqual(self.js("return document.documentElement.scrollWidth <= innerWidth"), True)
                self.assertEqual(self.js("return [...document.querySelectorAll('.bar button, .bar input, .bar label, #position')].filter(it => { const box = it.getBoundingClientRect(); return box.width && (box.right > innerWidth + 1 || box.left < -1) }).map(it => it.id || it.className)"), [])
        self.browser.size(1280, 800)


def pictures(folder):
    """Pictures of the documents, and of all widths where a folder is told."""
    page = driver.url_of(made_page())
    browser = driver.Chromium()
    try:
        browser.open(page)
        for theme in ("light", "dark"):
            browser.media(prefers_color_scheme=theme)
            for width in WIDTHS if folder else (1280,):
                browser.size(width, {360: 740, 1024: 768, 1920: 1080, 2560: 1300}.get(width, 800))
                for name, script in SCENES.items() if folder else [("lost_sum", SCENES["lost_sum"])]:
                    browser.open("about:blank")
                    browser.open(page)
                    browser.wait(READY)
                    browser.script(script)
                    browser.script("workbench.S.isOwn = false; localStorage.clear(); sessionStorage.clear()")
                    time.sleep(0.9)
                    if folder:
                        browser.picture(f"{folder}/{name}_{width}_{theme}.png")
                    else:
                        browser.picture(f"{ROOT}/docs/pictures/workbench{'_dark' if theme == 'dark' else ''}.png")
    finally:
        browser.close()


EXAMPLE = "await workbench.openDoc(workbench.examples.find(it => it.name === '%s.agc'), {isExample: true}); "
# What the pictures show.
SCENES = {
    "lost_sum": "await workbench.why('SUM'); await workbench.seek(22); document.body.dataset.room = 'why'",
    "fresh": "document.body.dataset.room = 'source'",
    "state": "await workbench.seek(22); document.body.dataset.room = 'state'",
    "key_echo": EXAMPLE % "key_echo" + "document.querySelector('[data-tab=\"dsky\"]').click(); await workbench.why('CH010'); document.body.dataset.room = 'dock'",
    "digits": EXAMPLE % "relay_word" + "document.querySelector('[data-tab=\"dsky\"]').click()",
    "waitlist": EXAMPLE % "waitlist" + "document.querySelector('[data-tab=\"output\"]').click()",
    "memory": EXAMPLE % "double_product" + "document.querySelector('[data-tab=\"memory\"]').click(); await workbench.why('PRODUCT')",
    "fault": "workbench.editor.showLine(27); const at = workbench.editor.text.indexOf('INDEX   COUNT'); workbench.editor.area.focus({preventScroll: true}); workbench.editor.area.setSelectionRange(at + 3, at + 4); document.execCommand('insertText', false, 'X'); workbench.editor.showLine(27); document.querySelector('[data-tab=\"tests\"]').click(); document.body.dataset.room = 'source'",
    "two_runs": f"workbench.editor.area.focus(); workbench.editor.area.select(); document.execCommand('insertText', false, {json.dumps(MENDED)}); document.getElementById('run').click(); await new Promise(done => setTimeout(done, 900)); document.activeElement.blur(); document.querySelector('[data-tab=\"compare\"]').click(); document.body.dataset.room = 'dock'",
    "found": "document.getElementById('find').click(); const field = document.querySelector('.finder'); field.value = 't'; field.dispatchEvent(new Event('input'))",
    "word_menu": "await workbench.seek(22); await workbench.session.breakpoint('change SUM'); await workbench.session.breakpoint('at LOOP'); await workbench.seek(23); document.body.dataset.room = 'state'; document.querySelector('#words [data-cell=\"SUM\"]').dispatchEvent(new MouseEvent('contextmenu', {bubbles: true, cancelable: true}))",
    "menu": "document.getElementById('menu-open').click()",
    "more": "document.getElementById('more').click()",
    "keys": "document.getElementById('keys').click()",
    "lesson": "document.getElementById('menu-open').click(); [...document.querySelectorAll('#menu button')].find(it => it.textContent.startsWith('Lesson 5')).click(); await new Promise(done => setTimeout(done, 900)); document.body.dataset.room = 'source'",
    "tests": "document.querySelector('[data-tab=\"tests\"]').click(); document.querySelector('[data-file=\"tests\"]').click(); await new Promise(done => setTimeout(done, 900)); document.body.dataset.room = 'dock'",
    "feed": "document.querySelector('[data-file=\"feed\"]').click()",
    "console": "document.querySelector('[data-tab=\"console\"]').click(); document.body.dataset.room = 'dock'; for (const it of ['why SUM', 'mem TABLE 5']) { const field = document.querySelector('#tab-console input'); field.value = it; field.form.requestSubmit(); await new Promise(done => setTimeout(done, 300)); }",
    "new": "document.getElementById('menu-open').click(); [...document.querySelectorAll('#menu button')].find(it => it.textContent.startsWith('New')).click(); await new Promise(done => setTimeout(done, 900))",
    "broken": "await workbench.openDoc({name: 'broken.agc', source: '        SETLOC  4000\\n        CA      NOWHERE\\n', steps: 20}); document.body.dataset.room = 'state'",
    "never": "document.activeElement.blur(); workbench.editor.showLine(19); const row = document.querySelector('#editor [data-line=\"23\"] .g'); row?.dispatchEvent(new MouseEvent('contextmenu', {bubbles: true, cancelable: true, clientX: 40, clientY: 300}))",
    "lecture": "document.activeElement.blur(); document.dispatchEvent(new KeyboardEvent('keydown', {key: 'l'})); await workbench.why('SUM'); await workbench.seek(22)",
}


def _gone_is_skipped(test):
    """A test that is skipped where its browser ends by itself, which says nothing of the page."""

    @functools.wraps(test)
    def tried(self):
        try:
            test(self)
        except driver.Gone as gone:
            self.skipTest(f"{self.browser_class.name} has ended: {gone}")

    return tried


def classes_in(browser, module):
    """The classes of tests in a browser, by their names, as a module of tests has them: all tests in Chromium, and in others those that TRIED_BY has."""
    found, chosen = {}, TRIED_BY.get(browser)
    for name, cls in list(globals().items()):
        if isinstance(cls, type) and issubclass(cls, Workbench) and (names := unittest.defaultTestLoader.getTestCaseNames(cls)):
            tried = names if chosen is None else [f"test_{it}" for it in chosen.get(name, ())]
            tests = {it: _gone_is_skipped(getattr(cls, it)) if it in tried else None for it in names}
            if tried:
                found[name] = type(name, (cls,), {"__module__": module, "__doc__": cls.__doc__, "browser_class": driver.BROWSERS[browser], **tests})
    return found


if __name__ == "__main__":
    pictures(sys.argv[1] if len(sys.argv) > 1 else None)
