"""The choice of the program that is asked, its failures, and the words and outputs of the command."""
from __future__ import annotations

import os
import re
import resource
import shutil
import signal
import subprocess
import sys
import time

from support import CLEAN, COMMAND, ERROR, HEADER, OPERATOR, REFUSED, ROOT, Test, variables


class Programs(Test):
    """Programs that fail, each for its file alone."""

    def setUp(self) -> None:
        super().setUp()
        for name in ("a.py", "b.py", "c.py"):
            self.write(name, ERROR)

    def told(self, lines: str) -> str:
        """Returns the message about b.py, if its program does this; the others are checked all the same."""
        program = self.program(f'case "$file" in *b.py) {lines};; esac\nreal "$@"')
        done = self.check("--program", program, "a.py", "b.py", "c.py")
        shown = done.output.splitlines()
        self.assertEqual(done.status, 3)
        self.assertEqual(shown[0], f"a.py:4:11: {OPERATOR}")
        self.assertEqual(shown[2:], [f"c.py:4:11: {OPERATOR}", "3 files: 2 errors, 0 dynamic places, 1 not checked"])
        return shown[1]

    def test_killed(self) -> None:
        self.assertEqual(self.told("kill -9 $$"), "b.py: pycheck was ended by signal 9 (SIGKILL)")

    def test_no_report(self) -> None:
        self.assertEqual(self.told("exit 0"), "b.py: pycheck ended with status 0 and without a report")
        self.assertEqual(self.told("exit 7"), "b.py: pycheck ended with status 7 and without a report")

    def test_its_own_reason(self) -> None:
        self.assertEqual(self.told("echo out of memory >&2; exit 3"), "b.py: out of memory")

    def test_details_that_need_too_much_memory(self) -> None:
        lacks = 'echo out of memory >&2; exit 3'
        program = self.program(f'case "$*" in *--details*) {lacks};; esac\nreal "$@"')
        self.assertEqual(self.check("--program", program, "a.py").output.splitlines()[0], "a.py:4:11: E13 operator")

    def test_other_places_of_details(self) -> None:
        self.write("d.py", HEADER + "def f() -> None:\n    pass\n\n\ndef f() -> None:\n    pass\n\n\ndef main() -> None:\n    f()\n\n\nmain()\n")
        one = self.program('case "$*" in *--json*) real "$@";; *) exit 3;; esac')
        done = self.check("--program", one, "d.py")
        self.assertIn("f is already bound, see 3:5", done.output)
        self.assertEqual(done.status, 1)

    def test_memory_of_the_program(self) -> None:
        if not hasattr(resource, "prlimit"):
            self.skipTest("this system bounds no other process")
        # The bound is there a moment after the program has begun
        self.assertEqual(self.told("sleep 0.3; ulimit -v >&2; exit 3"), "b.py: 1048576")

    def test_reports_that_are_none(self) -> None:
        unread = "b.py: the report of pycheck cannot be read: "
        self.assertTrue(self.told("echo nonsense; exit 0").startswith(unread))
        self.assertTrue(self.told("echo '{\"findings\":[]}'; exit 0").startswith(unread))
        self.assertTrue(self.told("echo '[[[['; exit 1").startswith(unread))
        counts = '{"dynamic":0,"errors":2,"findings":[],"format":2}'
        self.assertEqual(
            self.told(f"echo '{counts}'; exit 1"), "b.py: the report of pycheck does not agree with its counts"
        )
        none = '{"dynamic":0,"errors":0,"findings":[],"format":2}'
        self.assertEqual(
            self.told(f"echo '{none}'; exit 1"), "b.py: the report of pycheck does not agree with its status"
        )

    def test_places_outside_the_file(self) -> None:
        changed = "b.py: the file is not what was checked: was it changed meanwhile?"
        row = '{"code":"E13","column":11,"end":62,"line":4,"start":%d}'
        report = '{"dynamic":0,"errors":1,"findings":[' + row + '],"format":2}'
        self.assertEqual(self.told(f"echo '{report % 54}'; exit 1"), changed)
        self.assertEqual(self.told(f"echo '{report.replace('62', '6200') % 58}'; exit 1"), changed)
        self.assertEqual(self.told("echo refused N2 at byte 9999 >&2; exit 2"), changed)
        for line, column in ((0, 1), (99, 1), (4, 0), (4, 99)):
            place = f'{{"column":{column},"line":{line}}}'
            self.assertEqual(self.told(self.detailed(f'{{"places":[{place}],"text":"t"}}')), changed)

    def detailed(self, detail: str) -> str:
        """Returns the words of a program that reports the finding of a file with this detail."""
        row = f'{{"code":"E13","column":11,"detail":{detail},"end":62,"line":4,"start":58}}'
        return f"""echo '{{"dynamic":0,"errors":1,"findings":[{row}],"format":2}}'; exit 1"""

    def test_details_that_are_none(self) -> None:
        places = '"places":[]', '"places":1', '"places":[1]', '"places":[{"line":4}]', '"places":[{"column":1,"line":"x"}]'
        for parts in (places[0], '"text":"t"', places[0] + ',"text":""', *(f'{it},"text":"t"' for it in places[1:])):
            told = self.told(self.detailed(f"{{{parts}}}"))
            self.assertTrue(told.startswith("b.py: the report of pycheck cannot be read: "), told)

    def test_much_on_both_outputs(self) -> None:
        many = "head -c 300000 /dev/zero | tr '\\0' x"
        self.assertTrue(self.told(f"{many}; {many} >&2; exit 3").startswith("b.py: xxxx"))

    def test_missing(self) -> None:
        done = self.check("--program", "/nowhere/pycheck", "a.py")
        self.assertEqual((done.status, done.error), (3, "check_all: error: /nowhere/pycheck: no such program\n"))

    def test_missing_in_the_midst(self) -> None:
        program = self.program('rm -f "$0"; real "$@"')
        words = [sys.executable, str(COMMAND), "--program", program, *(f"{name}.py" for name in "abc")]
        one = "import os; os.sched_setaffinity(0, [min(os.sched_getaffinity(0))]); "
        one += f"os.execv({sys.executable!r}, {words!r})"
        done = subprocess.run(
            [sys.executable, "-c", one], cwd=self.folder, capture_output=True, env=variables({}), timeout=60
        )
        self.assertEqual(done.returncode, 3)
        gone = f"{program}: No such file or directory"
        self.assertEqual(
            done.stdout.decode().splitlines(),
            [
                f"a.py:4:11: {OPERATOR}",
                f"b.py: {gone}",
                f"c.py: {gone}",
                "3 files: 1 error, 0 dynamic places, 2 not checked",
            ],
        )

    def test_no_program_of_the_system(self) -> None:
        program = self.write("pycheck", "no program")
        program.chmod(0o755)
        done = self.check("--program", str(program), "a.py")
        self.assertEqual(done.output.splitlines()[0], f"a.py: {program}: Exec format error")

    def test_interrupted(self) -> None:
        program = self.program("touch begun; exec sleep 60")
        words = [sys.executable, str(COMMAND), "--program", program, "."]
        process = subprocess.Popen(
            words, cwd=self.folder, stdout=subprocess.PIPE, stderr=subprocess.PIPE, env=variables({}),
            # A process that a shell starts in the background ignores this signal, and so do its children
            preexec_fn=lambda: signal.signal(signal.SIGINT, signal.SIG_DFL),
        )
        began = time.monotonic()
        while not (self.folder / "begun").exists() and time.monotonic() < began + 30:
            time.sleep(0.05)
        process.send_signal(signal.SIGINT)
        output, error = process.communicate(timeout=30)
        self.assertEqual((process.returncode, output, error), (130, b"", b""))


class Choice(Test):
    """The choice of the program that is asked."""

    def setUp(self) -> None:
        super().setUp()
        self.write("a.py", ERROR)

    def stand_in(self, name: str, said: str) -> str:
        """Writes a program that prints its version, and returns its path."""
        path = self.write(name, f"#!/bin/sh\necho {said}\n")
        path.chmod(0o755)
        return str(path)

    def version(self, *words: str, **changed: "str | None") -> str:
        """Returns the version that the command prints."""
        return self.checked([*words, "--version"], b"", changed).output

    def test_option_before_variable(self) -> None:
        one, two = self.stand_in("one", "pycheck 1.2.3"), self.stand_in("two", "pycheck 4.5.6")
        self.assertEqual(self.version("--program", one, PYCHECK=two), f"pycheck 1.2.3 at {one}\n")
        self.assertEqual(self.version(PYCHECK=two), f"pycheck 4.5.6 at {two}\n")

    def checkout(self, script: str) -> "list[str]":
        """Copies the tools beside a script that finds the program, and returns the words that run the command there."""
        tools = self.folder / "tools"
        shutil.copytree(
            ROOT / "tools" / "pycheck_all", tools / "pycheck_all", ignore=shutil.ignore_patterns("__pycache__")
        )
        shutil.copy(COMMAND, tools)
        self.write("tools/ship", f"#!/bin/sh\n{script}\n").chmod(0o755)
        return [sys.executable, str(tools / "check_all"), "--version"]

    def run_words(self, words: "list[str]", **changed: "str | None") -> "tuple[int, str, str]":
        """Runs these words, and returns the status and both outputs."""
        done = subprocess.run(words, capture_output=True, cwd=self.folder, env=variables({"PYCHECK": None, **changed}))
        return done.returncode, done.stdout.decode(), done.stderr.decode()

    def test_the_script_of_a_checkout(self) -> None:
        one = self.stand_in("one", "pycheck 1.2.3")
        words = self.checkout(f'test "$*" = "program pycheck" && echo {one} && echo more')
        self.assertEqual(self.run_words(words), (0, f"pycheck 1.2.3 at {one}\n", ""))

    def test_on_path(self) -> None:
        self.stand_in("path/pycheck", "pycheck 7.8.9")
        words = self.checkout("echo it cannot be unpacked >&2; exit 1")
        path = f"{self.folder}/path:/usr/bin:/bin"
        self.assertEqual(self.run_words(words, PATH=path), (0, f"pycheck 7.8.9 at {self.folder}/path/pycheck\n", ""))

    def test_nothing_of_the_folder_is_found_on_path(self) -> None:
        for name in ("pycheck", "gzip", "sha256sum", "cat"):
            self.write(f"here/{name}", f"#!/bin/sh\ntouch {self.folder}/trace\n").chmod(0o755)
        words = self.checkout("cat /dev/null; echo it cannot be unpacked >&2; exit 1")
        wanted = (3, "", "check_all: error: it cannot be unpacked\n")
        for path in (":/usr/bin:/bin", ".:/usr/bin:/bin", "here:/usr/bin:/bin", "/usr/bin:/bin:"):
            with self.subTest(path):
                settings = variables({"PYCHECK": None, "PATH": path})
                done = subprocess.run(words, capture_output=True, cwd=self.folder / "here", env=settings)
                self.assertEqual((done.returncode, done.stdout.decode(), done.stderr.decode()), wanted)
        self.assertFalse((self.folder / "trace").exists())

    def test_a_broken_program_of_a_checkout(self) -> None:
        self.stand_in("path/pycheck", "pycheck 7.8.9")
        words = self.checkout("echo its sum is another >&2; exit 3")
        path = f"{self.folder}/path:/usr/bin:/bin"
        self.assertEqual(self.run_words(words, PATH=path), (3, "", "check_all: error: its sum is another\n"))

    def test_none(self) -> None:
        words = self.checkout("echo it cannot be unpacked >&2; exit 1")
        wanted = (3, "", "check_all: error: it cannot be unpacked\n")
        self.assertEqual(self.run_words(words, PATH="/usr/bin:/bin"), wanted)

    def test_of_a_wheel(self) -> None:
        package = self.folder / "site" / "pycheck_all"
        shutil.copytree(ROOT / "tools" / "pycheck_all", package, ignore=shutil.ignore_patterns("__pycache__"))
        self.stand_in("bin/pycheck", "pycheck 3.2.1")
        entry = "import sys\nfrom pycheck_all.command import main\nsys.exit(main())\n"
        command = self.write("bin/pycheck-all", entry)
        status, output, error = self.run_words(
            [sys.executable, str(command), "--version"], PYTHONPATH=str(package.parent), PATH="/usr/bin:/bin"
        )
        self.assertEqual((status, output, error), (0, f"pycheck 3.2.1 at {self.folder}/bin/pycheck\n", ""))
        status, output, error = self.run_words(
            [sys.executable, str(command), "--wrong"], PYTHONPATH=str(package.parent)
        )
        self.assertTrue(error.splitlines()[-1].startswith("pycheck-all: error: "))
        self.assertEqual((status, output), (3, ""))


class Command(Test):
    """Words, explanations and outputs that fail."""

    def test_usage(self) -> None:
        for words, said in (
            (("--core", "nowhere", "a.py"), "argument --core: there is no nowhere"),
            (("--select", "E12,E99", "a.py"), "argument --select: there is no code E99"),
            (("--ignore", "", "a.py"), "argument --ignore: there is no code \n"),
            (("--watch", "-"), "argument --watch: not with standard input, nor with --write-baseline"),
            (("--foo", "a.py"), "unrecognized arguments: --foo"),
            (("--output", "xml", "a.py"), "argument --output: invalid choice: 'xml' "),
            (("--explain", "E99"), "argument --explain: there is no code E99"),
            (("--stdin-name", "", "-"), "argument --stdin-name: the name is empty"),
            (("--out", "json", "a.py"), "unrecognized arguments: --out"),
        ):
            with self.subTest(words):
                done = self.check(*words)
                self.assertEqual((done.status, done.output), (3, ""))
                self.assertTrue(done.error.startswith("usage: check_all [-h] "))
                self.assertIn(f"\ncheck_all: error: {said}", done.error)

    def test_help(self) -> None:
        done = self.check("--help")
        self.assertEqual((done.status, done.error), (0, ""))
        for option in (
            "--exclude",
            "--stdin-name",
            "--output",
            "--strict",
            "--explain",
            "--statistics",
            "--baseline",
            "--write-baseline",
            "--all-refusals",
            "--page",
            "--color",
            "--version",
            "--program",
        ):
            self.assertIn(option, done.output)

    def test_explain(self) -> None:
        done = self.check("--explain", "n1", PYCHECK="/nowhere")
        self.assertEqual((done.status, done.error), (0, ""))
        self.assertEqual(done.output.splitlines()[:2], ["N1 Excluded keyword", "==================="])
        self.assertIn("\n    refused N1 at byte 88\n", done.output)
        self.assertIn("\n`raise`                     `assert`, which ends the run too\n", done.output)
        self.assertNotIn("**", done.output)
        link = self.check("--explain", "A2").output
        self.assertIn("the finding is E13 instead", re.sub(r"\s+", " ", link))
        self.assertNotIn("](", link)

    def test_output_that_nobody_reads(self) -> None:
        self.write("a.py", HEADER + "def main():\n" + '    print(1 + "a")\n' * 9000 + "\nmain()\n")
        words = f"'{sys.executable}' '{COMMAND}' --output full a.py"
        shell = f"( {words}; echo status $? >&2 ) | head -1"
        done = subprocess.run(["sh", "-c", shell], cwd=self.folder, capture_output=True, env=variables({}), timeout=120)
        self.assertEqual(done.stderr, b"status 3\n")
        self.assertTrue(done.stdout.startswith(b"a.py:4:11: error E13"))

    def test_output_that_is_full_or_closed(self) -> None:
        self.write("a.py", ERROR)
        for redirected, said in ((">/dev/full", "No space left on device"), (">&-", "standard output is closed")):
            with self.subTest(redirected):
                shell = f"'{sys.executable}' '{COMMAND}' a.py {redirected}"
                done = subprocess.run(["sh", "-c", shell], cwd=self.folder, capture_output=True, env=variables({}))
                self.assertEqual((done.returncode, done.stderr.decode()), (3, f"check_all: error: {said}\n"))

    def test_standard_error_that_is_closed(self) -> None:
        self.write("a.py", REFUSED)
        shell = f"'{sys.executable}' '{COMMAND}' --output junit a.py 2>&-"
        done = subprocess.run(["sh", "-c", shell], cwd=self.folder, capture_output=True, env=variables({}))
        self.assertEqual(done.returncode, 2)

    def test_progress_on_a_terminal(self) -> None:
        for name in ("a.py", "b.py", "c.py"):
            self.write(name, CLEAN)
        program = self.program('sleep 0.3; real "$@"')
        status, shown = self.on_terminal("--program", program, "--output", "concise", ".")
        self.assertEqual(status, 0)
        self.assertRegex(shown, "\r[1-3] of 3 files")
        self.assertTrue(shown.endswith("\r\x1b[K3 files: 0 errors, 0 dynamic places\n"), repr(shown))
        self.assertEqual(self.check("--program", program, ".").error, "")
        self.assertNotIn("of 3 files", self.on_terminal("--program", program, ".", TERM="dumb")[1])

    def test_nothing_stays_behind(self) -> None:
        temporary = self.folder / "temporary"
        temporary.mkdir()
        self.write("a.py", REFUSED)
        self.check("--all-refusals", "a.py", "-", given=REFUSED.encode(), TMPDIR=str(temporary))
        self.assertEqual(os.listdir(temporary), [])
