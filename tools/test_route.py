#!/usr/bin/env python3
"""Tests of ./route: python3 tools/test_route.py

Those of `Stubbed` have a copy of the script in a folder of its own, with stubs in place of `rt` and of the program; those of
`Proved` call the true one, which has the program proved where that is not done.
"""

import os
import pathlib
import shutil
import subprocess
import sys
import tempfile
import time
import unittest

ROOT = pathlib.Path(__file__).resolve().parent.parent
CASE_D = bytes.fromhex("0C 00 01 00 02 00 01 00 02 00 02 00 01 00")
LISTING_D = "density 2 tracks 2 width 3\n1: 2 0 1 | 2 1\n2: 1 2 2 | 1 1\n3: 0 1 0 | 0 0\n"

# Notes each run, its folder, and whether another one was under way, takes RT_SECONDS, builds the stub of the program and runs it. RT_STATUS other than 0
# stands for a program that is not proved: none is built.
RT = """#!/bin/sh
target=../../target
echo "$(basename "$PWD") $*" >> $target/calls
mkdir $target/busy || echo overlap >> $target/overlaps
echo 'rt: so many words' >&2
sleep "${RT_SECONDS:-0}"
status="${RT_STATUS:-0}"
if [ "$status" = 0 ]; then
    mkdir -p out
    cp ../../knee out/knee
fi
rmdir $target/busy
[ "$status" = 0 ] || exit "$status"
exec out/knee
"""

# Keeps the record that it reads and writes KNEE_TEXT.
KNEE = """#!/bin/sh
cat > "$(dirname "$0")/../../../target/record"
printf "$KNEE_TEXT"
exit "${KNEE_STATUS:-0}"
"""


def start(root, *words, stdout=subprocess.PIPE, **env):
    given = {"stdin": subprocess.DEVNULL, "stdout": stdout, "stderr": subprocess.PIPE, "text": True}
    return subprocess.Popen([root / "route", *words], env={**os.environ, **env}, **given)


def end(call):
    """Status, output and messages of a call."""
    out, said = call.communicate(timeout=1800)
    return call.returncode, out, said


class Stubbed(unittest.TestCase):
    def setUp(self):
        self.root = pathlib.Path(tempfile.mkdtemp(prefix="route "))
        self.addCleanup(shutil.rmtree, self.root)
        self.target = self.root / "target"
        (self.root / "tools").mkdir()
        (self.root / "crates" / "knee").mkdir(parents=True)
        for name in ("route", *(f"tools/{tool}.py" for tool in ("route", "channel", "second_channel", "second_record"))):
            shutil.copy(ROOT / name, self.root / name)
        self.env = {"PATH": f"{self.root / 'bin'}:{os.environ['PATH']}", "KNEE_TEXT": LISTING_D}
        (self.root / "bin").mkdir()
        for name, text in (("bin/rt", RT), ("knee", KNEE)):
            (self.root / name).write_text(text)
            (self.root / name).chmod(0o755)

    def start(self, *words, **more):
        return start(self.root, *words, **{**self.env, **more})

    def route(self, *words, **more):
        return end(self.start(*words, **more))

    def calls(self):
        """How often `rt` ran; no two runs were under way at once."""
        self.assertFalse((self.target / "overlaps").exists(), "two runs of rt at once")
        calls = self.target / "calls"
        lines = calls.read_text().splitlines() if calls.exists() else []
        self.assertEqual(set(lines) - {"knee run"}, set())
        return len(lines)

    def test_drawn(self):
        status, out, said = self.route("1 2", "2 1")
        self.assertEqual((status, out), (0, LISTING_D))
        self.assertEqual((self.target / "record").read_bytes(), CASE_D)
        self.assertEqual(self.calls(), 1)

    def test_from_elsewhere_and_by_a_link(self):
        link = self.root / "bin" / "link"
        link.symlink_to(self.root / "route")
        for command in (self.root / "route", link):
            call = subprocess.run([command, ".", "0"], cwd="/", env={**os.environ, **self.env}, capture_output=True, text=True)
            self.assertEqual((call.returncode, call.stdout), (0, LISTING_D))

    def test_at_once(self):
        for _ in range(2):  # The program is missing, then it stands.
            calls = [self.start("1 2", "2 1", RT_SECONDS="0.3") for _ in range(5)]
            for status, out, _ in map(end, calls):
                self.assertEqual((status, out), (0, LISTING_D))
        self.assertEqual(self.calls(), 10)

    def test_a_call_that_is_killed_leaves_the_lock_to_rt(self):
        first = self.start("1 2", "2 1", RT_SECONDS="2")
        while not (self.target / "busy").exists():
            self.assertIsNone(first.poll())
            time.sleep(0.05)
        first.kill()
        first.wait()
        first.stdout.close()
        first.stderr.close()
        self.assertEqual(self.route("1 2", "2 1")[:2], (0, LISTING_D))
        self.assertEqual(self.calls(), 2)

    def test_the_first_run_tells_of_the_log(self):
        log = self.target / "route.log"
        _, _, said = self.route("1 2", "2 1")
        self.assertIn("proved and built first", said)
        self.assertIn(str(log), said)
        self.assertEqual(log.read_text(), "rt: so many words\n" + LISTING_D)
        _, _, said = self.route("1 2", "2 1")
        self.assertEqual(said, "")

    def test_a_later_run_that_takes_long_tells_too(self):
        self.route("1 2", "2 1")
        _, _, said = self.route("1 2", "2 1", RT_SECONDS="4")
        self.assertIn("proved and built first", said)

    def test_refused(self):
        self.assertEqual(self.route("1", "0", KNEE_TEXT="refused 7\\n")[:2], (1, "refused 7\n"))

    def test_no_channel(self):
        cases = [
            ("1 x", "2 1", "top row: 'x'"),
            ("1 2", "2 1,", "bottom row: '1,'"),
            ("65536", "0", "top row: '65536'"),
            ("-1", "0", "top row: '-1'"),
            ("+1", "1", "top row: '+1'"),
            ("1_0", "0", "top row: '1_0'"),
            ("0", "9" * 5000, "bottom row: '9999"),
            ("\u0661", "1", "top row: "),
            ("1 2\nbottom 2 1", "", "top row: 'bottom'"),
            ("# 1", "0 1", "top row: '#'"),
            ("1 2", "2 1 0", "the rows differ in length, which a record cannot say: top 2, bottom 3"),
            (". " * 16383, ". " * 16383, "16383 columns"),
        ]
        for top, bottom, words in cases:
            status, out, said = self.route(top, bottom)
            self.assertEqual((status, out), (2, ""))
            self.assertIn(words, said)
            self.assertEqual(said.count("\n"), 1)
        self.assertEqual(self.calls(), 0)
        self.assertFalse((self.target / "record").exists())

    def test_usage(self):
        for words in [(), ("1 2",), ("1", "2", "2", "1"), ("--help",)]:
            status, out, said = self.route(*words)
            self.assertEqual((status, out), (2, ""))
            self.assertTrue(said.startswith("usage: ./route ") and said.count("\n") == 1, said)
        self.assertEqual(self.calls(), 0)

    def test_lost_output(self):
        with open("/dev/full", "w") as full:
            status, _, said = self.route("1 2", "2 1", stdout=full)
        self.assertEqual(status, 3)
        self.assertIn("the output is lost: No space left on device", said)
        reader, writer = os.pipe()
        os.close(reader)
        status, _, said = self.route("1 2", "2 1", stdout=writer)
        os.close(writer)
        self.assertEqual(status, 3)
        self.assertIn("the output is lost: Broken pipe", said)
        for closed in (">&-", ">&- <&-", ">&- 2>&-", ">&- 2>&- <&-"):
            command = ["sh", "-c", f'"$0" "1 2" "2 1" {closed}', self.root / "route"]
            self.assertEqual(subprocess.run(command, env={**os.environ, **self.env}, stderr=subprocess.DEVNULL).returncode, 3)
        with open("/dev/full", "w") as full:
            status, _, said = self.route("1", "0", stdout=full, KNEE_TEXT="refused 7\\n")
        self.assertEqual(status, 3)

    def test_messages_lost(self):
        command = ["sh", "-c", '"$0" "1 2" "2 1" 2>&- <&-', self.root / "route"]
        call = subprocess.run(command, env={**os.environ, **self.env}, capture_output=True, text=True)
        self.assertEqual((call.returncode, call.stdout), (0, LISTING_D))

    def test_not_proved(self):
        status, out, said = self.route("1 2", "2 1", RT_STATUS="1")
        self.assertEqual((status, out), (4, ""))
        self.assertIn("rt: so many words\n", said)
        self.assertIn(f"not proved, or fails; the log is {self.target / 'route.log'}", said)
        self.assertFalse((self.target / "record").exists())

    def test_no_longer_proved(self):
        self.assertEqual(self.route("1 2", "2 1")[0], 0)
        (self.target / "record").unlink()
        self.assertEqual(self.route("1 2", "2 1", RT_STATUS="1")[:2], (4, ""))
        self.assertFalse((self.target / "record").exists())

    def test_no_toolchain(self):
        (self.root / "bin" / "rt").unlink()
        for name, command in (("python3", sys.executable), ("dirname", "dirname"), ("readlink", "readlink")):
            (self.root / "bin" / name).symlink_to(shutil.which(command))
        status, out, said = self.route("1 2", "2 1", PATH=str(self.root / "bin"))
        self.assertEqual((status, out), (4, ""))
        self.assertIn("rt, the command of the Rattle toolchain: No such file", said)

    def test_failed_program(self):
        for more in ({"KNEE_STATUS": "9"}, {"KNEE_TEXT": ""}, {"KNEE_TEXT": "density 2"}):
            self.assertEqual(self.route("1 2", "2 1", **more)[:2], (4, ""))


class Proved(unittest.TestCase):
    @classmethod
    def setUpClass(cls):
        end(start(ROOT, "", ""))  # proves where that is not done

    def route(self, *words, **more):
        return end(start(ROOT, *words, **more))

    def test_readme(self):
        readme = (ROOT / "README.md").read_text()
        self.assertIn(f"```sh\n./route '1 2' '2 1'\n```\n\n```\n{LISTING_D}```\n", readme)
        self.assertEqual(self.route("1 2", "2 1"), (0, LISTING_D, ""))

    def test_drawn(self):
        self.assertEqual(self.route("", ""), (0, "density 0 tracks 0 width 0\n", ""))
        self.assertEqual(self.route("5", "5"), (0, "density 0 tracks 0 width 1\n1: 5 |\n", ""))
        self.assertEqual(self.route(". 256", "256 0")[0], 0)
        self.assertEqual(self.route("0 " * 64, ". " * 64)[0], 0)

    def test_refused(self):
        rows = {7: ("1", "0"), 6: ("257 257", "0 0"), 5: ("0 " * 65, "0 " * 65), 1: ("0 " * 257, "0 " * 257)}
        for number, (top, bottom) in rows.items():
            self.assertEqual(self.route(top, bottom), (1, f"refused {number}\n", ""))

    def test_no_channel(self):
        self.assertEqual(self.route("1 one", "2 1"), (2, "", "route: top row: 'one' is not a number 0 to 65535\n"))

    def test_lost_output(self):
        with open("/dev/full", "w") as full:
            self.assertEqual(self.route("1 2", "2 1", stdout=full)[0], 3)

    def test_at_once(self):
        for answer in map(end, [start(ROOT, "1 2", "2 1") for _ in range(4)]):
            self.assertEqual(answer[:2], (0, LISTING_D))


if __name__ == "__main__":
    unittest.main()
