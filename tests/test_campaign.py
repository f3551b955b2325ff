"""Tests of views/campaign."""
import json
import os
import re
import shutil
import signal
import subprocess
import sys
import time
import unittest

from common import PROGRAM, VIEWS, write
from viewing import LOST, ViewCase, call, text_at

# A run of lost_sum is right where its pulse comes between its loops: what comes of most runs.
ASKED = ["campaign", LOST[0], "200", "--input", "1-100 TIME3 PINC"]
PYTHONS = [sys.executable, "/usr/bin/python3"]


def lines_of(folder):
    """What came of each run, in the order of their numbers: of each one result, where none is made twice."""
    found = {}
    for name in sorted(it for it in os.listdir(folder) if it.endswith(".jsonl")):
        own = []
        for line in text_at(f"{folder}/{name}").splitlines():
            it = json.loads(line)
            if "result" in it:
                found.setdefault(it["run"], []).append(own[it["result"]])
            else:
                own.append(it)
    return sorted(found.items())


def with_dask():
    """A Python that has Dask, or None."""
    return next((it for it in PYTHONS if os.path.exists(it) and not subprocess.run([it, "-c", "import distributed"], capture_output=True, check=False).returncode), None)


class Campaign(ViewCase):
    """Campaigns by one process and by several."""

    def test_campaign(self):
        """The groups of a campaign, each with the feed that does it; the same at each call."""
        status, out, err = call(*ASKED, "--runs", "80", "--out", f"{self.room}/one")
        with self.subTest("the status of a campaign that finds something"):
            self.assertEqual((status, err), (1, ""))
        with self.subTest("what is usual"):
            self.assertIn("usual: CH 012 00062\n", out, out)
        with self.subTest("a group and its feed"):
            self.assertTrue(re.search(r"^\d+ runs: CH 012 word 1 is 000(36|63|75) in place of 00062\n  1 of 1 inputs do it: \d+ TIME3 PINC\n", out, re.M), out)
        with self.subTest("the report's file"):
            self.assertEqual(text_at(f"{self.room}/one/report.txt"), out)
        with self.subTest("a page of it"):
            self.assertTrue("<td>1</td>" in text_at(f"{self.room}/one/report.html") or "group-1.feed" in text_at(f"{self.room}/one/report.html"))
        command = re.search(r"agcws (run --notes .*)", out)[1].split()
        words = subprocess.run([os.environ.get("AGCWS") or f"{VIEWS}/../crates/agcws/out/agcws", *command], capture_output=True, text=True, timeout=60).stdout
        with self.subTest("the command shows it"):
            self.assertNotIn("CH 012 00062", words, words)
        with self.subTest("a second call makes nothing anew"):
            self.assertEqual(call(*ASKED, "--runs", "80", "--out", f"{self.room}/one"), (1, out, ""))
        status, shown, _ = call(*ASKED, "--out", f"{self.room}/one", "--show", "7")
        with self.subTest("the feed of a run"):
            self.assertEqual((status, bool(re.fullmatch(r"\d+ TIME3 PINC\n", shown))), (0, True), shown)
        with self.subTest("another seed is another campaign"):
            self.assertEqual(call(*ASKED, "--seed", "2", "--out", f"{self.room}/one")[::2], (2, f"{self.room}/one/campaign.json is of another campaign: another program, source, feed, input, seed or option\n"))

    def test_parts(self):
        """What is broken off goes on, a line that is cut short is passed over, and parts come to the same."""
        call(*ASKED, "--runs", "60", "--out", f"{self.room}/whole")
        whole = lines_of(f"{self.room}/whole")
        cut = text_at(f"{self.room}/whole/runs.jsonl").splitlines(keepends=True)
        os.makedirs(f"{self.room}/cut")
        shutil.copy(f"{self.room}/whole/campaign.json", f"{self.room}/cut")
        write(f"{self.room}/cut/runs.jsonl", "".join([*cut[:30], cut[30][:9]]).encode())
        call(*ASKED, "--runs", "60", "--out", f"{self.room}/cut")
        text = text_at(f"{self.room}/cut/runs.jsonl")
        with self.subTest("the line that was cut short stands where it stood"):
            self.assertTrue(text.startswith("".join([*cut[:30], cut[30][:9]]) + "\n"))
        write(f"{self.room}/cut/runs.jsonl", text.replace(cut[30][:9] + "\n", "", 1).encode())
        with self.subTest("what was broken off goes on"):
            self.assertEqual(lines_of(f"{self.room}/cut"), whole)
        for part in ("1/3", "2/3", "3/3"):
            with self.subTest(f"part {part}"):
                self.assertEqual(call(*ASKED, "--runs", "60", "--out", f"{self.room}/parts", "--part", part), (0, "", ""))
        with self.subTest("parts"):
            self.assertEqual(lines_of(f"{self.room}/parts"), whole)
        with self.subTest("their report"):
            self.assertEqual(call(*ASKED, "--runs", "60", "--out", f"{self.room}/parts", "--report")[1].replace("/parts/", "/whole/"), text_at(f"{self.room}/whole/report.txt"))
        if shutil.which("parallel"):
            words = [f"{VIEWS}/campaign", *ASKED[1:3], "--input", "'1-100 TIME3 PINC'", "--runs", "60", "--out", f"{self.room}/side", "--part", "{}/4", "--jobs", "1"]
            subprocess.run(["parallel", "--will-cite", " ".join(words), ":::", "1", "2", "3", "4"], check=True, capture_output=True, timeout=120)
            with self.subTest("parts by GNU parallel"):
                self.assertEqual(lines_of(f"{self.room}/side"), whole)
        else:
            print("views: GNU parallel is not there, so it is skipped: apt install parallel")

    def test_window(self):
        """An input at each cycle of a window, as shake moves it: of the cycles 1 to 30 of lost_sum 13 give the sum. Run by run it is what a process for each makes."""
        asked = ["campaign", LOST[0], "200", "--window", "1-30 TIME3 PINC", "--runs", "30"]
        status, out, err = call(*asked, "--out", f"{self.room}/window")
        with self.subTest("the status of a window"):
            self.assertEqual((status, err), (1, ""))
        with self.subTest("what is as usual in it"):
            self.assertIn("usual: CH 012 00062\n13 runs are as usual\n17 runs: CH 012 word 1 is 00036 in place of 00062\n", out, out)
        with self.subTest("the feed of a run of it"):
            self.assertEqual(call(*asked, "--out", f"{self.room}/window", "--show", "6"), (0, "7 TIME3 PINC\n", ""))
        status, out, err = call(*asked[:-1], "60", "--input", "400-500 CHAN 15 21", "--out", f"{self.room}/draws")
        with self.subTest("a window of each draw"):
            self.assertTrue((status, err) == (1, "") and "\n26 runs are as usual\n" in out, f"{status} {out} {err}")
        with self.subTest("a window that is backwards"):
            self.assertEqual(call("campaign", LOST[0], "200", "--window", "9-3 TIME3 PINC", "--out", f"{self.room}/none")[0], 2)
        with self.subTest("a window of an input that is refused"):
            self.assertEqual(call("campaign", LOST[0], "200", "--window", "1-9 TIME3 MINC", "--out", f"{self.room}/none"), (1, "", "agcws: E33 LINE 1\n"))

    def test_expectations(self):
        """A run is right where it meets a text of tests."""
        tests = write(f"{self.room}/sum.expect", b"SOURCE other.agc\nSTEPS 1\nTEST the sum\n CHANNEL 012 50D THEN NOTHING\n")
        asked = ["campaign", LOST[0], "200", "--window", "1-30 TIME3 PINC", "--runs", "30", "--expect"]
        status, out, err = call(*asked, tests, "--out", f"{self.room}/tests")
        with self.subTest("the status where tests are not met"):
            self.assertEqual((status, err), (1, ""))
        with self.subTest("how many runs meet them"):
            self.assertIn("\n13 runs meet all tests\n17 runs: not met: the sum: line 5, step ", out, out)
        empty = write(f"{self.room}/none.expect", b"SOURCE other.agc\nSTEPS 1\n")
        status, out, _ = call(*asked, empty, "--out", f"{self.room}/all")
        with self.subTest("a text without a test"):
            self.assertTrue(status == 1 and "13 runs are as usual" in out, out)
        wrong = write(f"{self.room}/wrong.expect", b"TEST a sum\n CHANEL 12 50D\n")
        status, out, err = call(*asked, wrong, "--out", f"{self.room}/wrong")
        with self.subTest("a text that is refused"):
            self.assertTrue((status, out) == (2, "") and "it.expect:5:2: error: " in err, f"{status} {out} {err}")
        with self.subTest("an image has no tests"):
            self.assertEqual(call("campaign", "--image", LOST[0], *asked[2:], tests, "--out", f"{self.room}/none")[0], 2)

    def test_refused_campaigns(self):
        """What is wrong is told in words, and nothing is made."""
        folder = f"{self.room}/none"
        for label, words, wanted in (
            ("a span that is backwards", ["--input", "9-3 TIME3 PINC"], "is no INPUT"),
            ("a form that is none", ["--input", "TIME3 PINC"], "is no INPUT"),
            ("a part beyond the last", ["--input", "1-9 TIME3 PINC", "--part", "5/4"], "a part is I/N"),
        ):
            status, out, err = call("campaign", LOST[0], "200", *words, "--out", folder)
            with self.subTest(label):
                self.assertTrue((status, out) == (2, "") and wanted in err, err)
        with self.subTest("an input that is refused"):
            self.assertEqual(call("campaign", LOST[0], "200", "--input", "1-9 TIME3 MINC", "--out", folder), (1, "", "agcws: E33 LINE 1\n"))
        with self.subTest("a key that is none"):
            self.assertEqual(call("campaign", LOST[0], "200", "--input", "KEYS 1-9 5-6 X", "--out", folder)[0], 2)
        with self.subTest("an endless run"):
            self.assertEqual(call("campaign", LOST[0], "900000000", "--input", "1-9 TIME3 PINC", "--runs", "1", "--seconds", "0.2", "--out", f"{self.room}/endless")[0], 1)
        with self.subTest("nothing is made"):
            self.assertFalse(os.path.exists(folder))

    def test_dask(self):
        """Four workers on this machine, one of which is killed midway, come to what one process does."""
        python = with_dask()
        if not python:
            self.skipTest("Dask is not there: apt install python3-distributed")
        env = {**os.environ, "AGCWS": PROGRAM}
        quiet = {"env": env, "stdout": subprocess.DEVNULL, "stderr": subprocess.DEVNULL, "start_new_session": True, "cwd": self.room}
        file = f"{self.room}/scheduler.json"
        begun = [subprocess.Popen([python, "-m", "distributed.cli.dask_scheduler", "--host", "127.0.0.1", "--port", "0", "--no-dashboard", "--scheduler-file", file], **quiet)]
        try:
            for _ in range(300):
                if os.path.exists(file) and text_at(file).rstrip().endswith("}"):
                    break
                time.sleep(0.1)
            address = json.loads(text_at(file))["address"]
            workers = [subprocess.Popen([python, "-m", "distributed.cli.dask_worker", address, "--host", "127.0.0.1", "--nthreads", "1", "--no-nanny", "--no-dashboard"], **quiet) for _ in range(4)]
            begun += workers
            words = [python, f"{VIEWS}/campaign", *ASKED[1:], "--runs", "400"]
            ran = subprocess.Popen([*words, "--out", f"{self.room}/dask", "--dask", address], stdout=subprocess.PIPE, text=True, env=env)
            kept = f"{self.room}/dask/runs.jsonl"
            while ran.poll() is None and not (os.path.exists(kept) and os.path.getsize(kept)):
                time.sleep(0.05)
            os.killpg(workers[0].pid, signal.SIGKILL)
            ran.communicate(timeout=300)
            with self.subTest("the status of a campaign by Dask"):
                self.assertEqual(ran.returncode, 1)
        finally:
            for it in begun:
                if it.poll() is None:
                    os.killpg(it.pid, signal.SIGKILL)
                it.wait()
        call(*ASKED, "--runs", "400", "--out", f"{self.room}/alone")
        with self.subTest("four workers, one killed"):
            self.assertEqual(lines_of(f"{self.room}/dask"), lines_of(f"{self.room}/alone"))
        far = subprocess.run([*words, "--out", f"{self.room}/far", "--dask", "tcp://127.0.0.1:9"], capture_output=True, text=True, timeout=120, check=False, env=env)
        with self.subTest("a scheduler that is not there"):
            self.assertTrue(far.returncode == 3 and "Traceback" not in far.stderr, far.stderr[-500:])

    def test_worker_without_program(self):
        """A worker that has no program is told in words, as one process without it."""
        env = {**os.environ, "AGCWS": f"{self.room}/nothing"}
        for words in (["--window", "1-9 TIME3 PINC"], ["--input", "1-9 TIME3 PINC"]):
            status, out, err = call("campaign", LOST[0], "200", *words, "--out", f"{self.room}/nobody", env=env)
            with self.subTest(f"no program, {words[0]}"):
                self.assertTrue((status, out) == (3, "") and "Traceback" not in err and f"{self.room}/nothing" in err, f"{status} {out} {err}")
        python = with_dask()
        if python:
            text = "import pickle, pipe; it = pickle.loads(pickle.dumps(pipe.Refused(3, 'the program is not there'))); print(it.status, it)"
            with self.subTest("what a worker raises"):
                self.assertEqual(subprocess.run([python, "-c", text], capture_output=True, text=True, cwd=VIEWS, check=False).stdout, "3 the program is not there\n")


if __name__ == "__main__":
    unittest.main()
