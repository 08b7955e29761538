"""Hostile, broken, endless or slow files: each gets a plain message and the status 3, and stops no others."""
from __future__ import annotations

import os
import resource
import subprocess
import sys
import time
from pathlib import Path

from support import CLEAN, COMMAND, ERROR, HEADER, OPERATOR, REFUSED, Done, Test, variables

NOT_CHECKED = "3 files: 2 errors, 0 dynamic places, 1 not checked"


class Folders(Test):
    """Folders that are deep, or cannot be read."""

    def nest(self, name: str, depth: int) -> None:
        """Makes nested folders of one name, with a module in the innermost."""
        descriptor = os.open(self.folder, os.O_RDONLY)
        for _ in range(depth):
            os.mkdir(name, dir_fd=descriptor)
            inner = os.open(name, os.O_RDONLY, dir_fd=descriptor)
            os.close(descriptor)
            descriptor = inner
        with open(os.open("m.py", os.O_WRONLY | os.O_CREAT, dir_fd=descriptor), "w", encoding="utf-8") as file:
            file.write(ERROR)
        os.close(descriptor)
        self.addCleanup(subprocess.run, ["rm", "-rf", str(self.folder / name)], check=True)

    def test_nested_folders(self) -> None:
        self.write("a.py", ERROR)
        self.write("z.py", ERROR)
        self.nest("b", 1500)
        done = self.check(".")
        self.assertEqual((done.status, len(done.output.splitlines())), (1, 4))
        self.assertEqual(done.output.splitlines()[1], "b/" * 1500 + f"m.py:4:11: {OPERATOR}")

    def test_nested_folders_in_a_checkout(self) -> None:
        for name in ("HEAD", "objects/x", "refs/x"):
            self.write(f".git/{name}", "")
        self.write(".gitignore", "a.py\n")
        self.nest("b", 1500)
        self.assertEqual(self.check(".").output.splitlines()[-1], "1 file: 1 error, 0 dynamic places")

    def test_a_path_that_is_too_long(self) -> None:
        self.write("a.py", ERROR)
        self.write("z.py", ERROR)
        self.nest("b" * 100, 60)
        done = self.check(".")
        lines = done.output.splitlines()
        self.assertEqual((done.status, lines[-1]), (3, NOT_CHECKED))
        self.assertEqual((lines[0], lines[2]), (f"a.py:4:11: {OPERATOR}", f"z.py:4:11: {OPERATOR}"))
        self.assertTrue(lines[1].endswith("bbb: cannot be read: File name too long"))


class Baselines(Test):
    """Files that are not baselines, and baselines that cannot be written."""

    def refused(self, done: Done, said: str) -> None:
        """Asserts that nothing was checked, and that this message was printed."""
        self.assertEqual((done.status, done.output, done.error), (3, "", f"check_all: error: {said}\n"))

    def test_endless_and_waiting_files(self) -> None:
        self.write("a.py", ERROR)
        os.mkfifo(self.folder / "pipe")
        (self.folder / "link").symlink_to("/dev/zero")
        for path in ("/dev/zero", "pipe", "link", "/dev/stdin", "/dev/full"):
            with self.subTest(path):
                self.refused(self.check("--baseline", path, "a.py"), f"{path}: it is no regular file")
        for path in ("/dev/zero", "pipe", "/dev/full"):
            with self.subTest(path):
                self.refused(self.check("--write-baseline", path, "a.py"), f"{path}: it is no regular file")
        self.refused(self.check("--baseline", ".", "a.py"), ".: it is no regular file")
        with open(self.folder / "huge.json", "wb") as file:
            file.truncate(1 << 40)
        self.refused(self.check("--baseline", "huge.json", "a.py"), "huge.json: it is longer than 16777216 bytes")

    def test_a_full_device(self) -> None:
        self.write("a.py", ERROR)
        self.refused(self.check("--page", "/dev/full", "a.py"), "/dev/full: No space left on device")

    def test_deep_and_strange_ones(self) -> None:
        self.write("a.py", REFUSED)
        self.write("known.json", "[" * 100_000)
        self.refused(
            self.check("--baseline", "known.json", "a.py"), "known.json: this is no baseline: it is nested too deep"
        )
        self.write("known.json", '{"format": 1, "known": [{"path": "a.py", "code": "", "line": "", "count": 1}]}')
        self.refused(
            self.check("--all-refusals", "--baseline", "known.json", "a.py"),
            "known.json: this is no baseline: the code of an entry is no code",
        )


class Writing(Test):
    """Links in the checked folders, at the path of a file to be written."""

    def setUp(self) -> None:
        super().setUp()
        self.write("top/a.py", ERROR)
        self.own = self.write("own/own.txt", "mine\n")

    def refused(self, path: str, *words: str, cwd: "Path | None" = None) -> None:
        """Asserts that neither the page nor the baseline is written over a link, nor read."""
        for option in ("--page", "--write-baseline"):
            with self.subTest(option=option, path=path):
                command = [sys.executable, str(COMMAND), option, path, *words]
                done = subprocess.run(command, cwd=cwd or self.folder, capture_output=True, env=variables({}))
                said = f"check_all: error: {path}: it goes over a link of what is checked, which is not followed\n"
                self.assertEqual((done.returncode, done.stdout, done.stderr.decode()), (3, b"", said))
                self.assertEqual(self.own.read_text(encoding="utf-8"), "mine\n")
                self.assertEqual(sorted(it.name for it in self.own.parent.iterdir()), ["own.txt"])

    def test_links_in_what_is_checked(self) -> None:
        (self.folder / "top" / "report").symlink_to("../own/own.txt")
        (self.folder / "top" / "new").symlink_to("../own/new.txt")
        (self.folder / "top" / "out").symlink_to("../own")
        for path in ("top/report", "top/new", "top/out/x", "./top//out/x", f"{self.folder}/top/report"):
            self.refused(path, "top")
            self.refused(path, "top/a.py")
        self.refused("report", "a.py", cwd=self.folder / "top")
        self.refused("out/x", "-", cwd=self.folder / "top")

    def test_links_elsewhere(self) -> None:
        (self.folder / "elsewhere").mkdir()
        (self.folder / "elsewhere" / "link").symlink_to("../own/own.txt")
        done = self.check("--page", f"{self.folder}/elsewhere/link", "top")
        self.assertEqual(done.status, 1)
        self.assertTrue(self.own.read_text(encoding="utf-8").startswith("<!doctype html>"))
        self.assertTrue(self.check("--page", "/dev/stdout", "top").output.startswith("<!doctype html>"))

    def test_a_pipe_that_nobody_reads(self) -> None:
        os.mkfifo(self.folder / "top" / "pipe")
        done = self.check("--page", "top/pipe", "top")
        self.assertEqual((done.status, done.error), (3, "check_all: error: top/pipe: No such device or address\n"))


class Time(Test):
    """Files that take too long."""

    def test_programs_that_do_not_end(self) -> None:
        """The programs sleep, have a child that holds their outputs, close their outputs, or write without end."""
        for name in "abcdef":
            self.write(f"{name}.py", ERROR)
        program = self.program(
            'case "$file" in\n'
            "*b.py) exec sleep 100;;\n"
            "*c.py) sleep 100;;\n"
            "*d.py) exec sleep 100 >&- 2>&-;;\n"
            "*e.py) while :; do echo x; sleep 0.1; done;;\n"
            'esac\nreal "$@"'
        )
        began = time.monotonic()
        done = self.check("--program", program, "--timeout", "8", ".")
        self.assertLess(time.monotonic() - began, 90)
        self.assertEqual(done.status, 3)
        late = [f"{name}.py: pycheck did not end within 8 seconds" for name in "bcde"]
        counts = "6 files: 2 errors, 0 dynamic places, 4 not checked"
        shown = [f"a.py:4:11: {OPERATOR}", *late, f"f.py:4:11: {OPERATOR}", counts]
        self.assertEqual(done.output.splitlines(), shown)

    def test_refusals_that_take_too_long(self) -> None:
        self.write("b.py", REFUSED)
        program = self.program('case "$file" in */module.py) exec sleep 100;; esac\nreal "$@"')
        done = self.check("--program", program, "--all-refusals", "--timeout", "6", "b.py")
        self.assertEqual(done.status, 2)
        self.assertEqual(
            done.output.splitlines()[1],
            "b.py: there may be more refusals: pycheck did not end within 6 seconds",
        )

    def test_words(self) -> None:
        self.write("a.py", ERROR)
        for word in ("0", "-1", "x", "1e9", "nan", "inf", "", "86401", "1" * 400):
            with self.subTest(word):
                done = self.check(f"--timeout={word}", "a.py")
                self.assertEqual((done.status, done.output), (3, ""))
                self.assertIn("argument --timeout: no number of seconds up to 86400", done.error)
        self.assertEqual(self.check("--timeout", "60", "a.py").status, 1)

    def test_brackets_that_are_never_closed(self) -> None:
        self.write("b.py", HEADER + "(\n" * 300_000)
        before = os.times()
        done = self.check("--all-refusals", "--timeout", "9", "b.py")
        self.assertEqual(done.status, 2)
        # Each of these lines was once compared with all that follow: hours
        self.assertLess(os.times().children_user - before.children_user, 60)


class Many(Test):
    """Modules with thousands of findings: the time grows with their number, not with its square."""

    def used(self, count: int) -> float:
        """Returns the seconds of one processor for the page of so many findings, the least of three."""
        self.write("a.py", HEADER + "def main():\n" + '    print(1 + "a")\n' * count + "\nmain()\n")
        used = []
        for _ in range(3):
            before = os.times().children_user
            self.assertEqual(self.check("--page", "page.html", "a.py").status, 1)
            used.append(os.times().children_user - before)
        return min(used)

    def test_the_page(self) -> None:
        # Three times the seconds; twelve times if each line were compared with all findings
        self.assertLess(self.used(12_000), 7 * self.used(3_000))


class Other(Test):
    """Other failures."""

    def test_reports_that_are_deep(self) -> None:
        self.write("a.py", CLEAN)
        program = self.program("head -c 100000 /dev/zero | tr '\\0' '['; exit 1")
        done = self.check("--program", program, "a.py")
        self.assertEqual(done.status, 3)
        self.assertTrue(done.output.startswith("a.py: the report of pycheck cannot be read: "))

    def test_standard_input_that_is_closed(self) -> None:
        shell = f"'{sys.executable}' '{COMMAND}' - <&-"
        done = subprocess.run(["sh", "-c", shell], cwd=self.folder, capture_output=True, env=variables({}))
        self.assertEqual(done.returncode, 3)
        self.assertEqual(done.stdout.decode().splitlines()[0], "<stdin>: cannot be read: standard input is closed")

    def test_a_folder_that_is_gone(self) -> None:
        (self.folder / "gone").mkdir()
        shell = f"cd gone; rmdir ../gone; '{sys.executable}' '{COMMAND}' ."
        done = subprocess.run(["sh", "-c", shell], cwd=self.folder, capture_output=True, env=variables({}))
        self.assertEqual((done.returncode, done.stdout), (3, b""))
        self.assertEqual(len(done.stderr.splitlines()), 1)
        self.assertNotIn(b"Traceback", done.stderr)

    def test_files_that_change_meanwhile(self) -> None:
        for name in ("a.py", "b.py", "c.py"):
            self.write(name, ERROR)
        gone = 'rm "$file"'
        changes = (gone, f'{gone}; mkfifo "$file"', ': >"$file"', f'{gone}; ln -s /dev/zero "$file"', f'{gone}; mkdir "$file"')
        for change in changes:
            with self.subTest(change):
                answer = f'"{os.environ["PYCHECK"]}" "$@"; status=$?'
                program = self.program(f'{answer}; case "$file" in *b.py) {change};; esac; exit $status')
                done = self.check("--program", program, "a.py", "b.py", "c.py")
                lines = done.output.splitlines()
                self.assertEqual((done.status, lines[-1]), (3, NOT_CHECKED))
                self.assertEqual((lines[0], lines[2]), (f"a.py:4:11: {OPERATOR}", f"c.py:4:11: {OPERATOR}"))
                self.assertTrue(lines[1].startswith("b.py: "))
                subprocess.run(["rm", "-rf", str(self.folder / "b.py")], check=True)
                self.write("b.py", ERROR)

    def test_no_room_for_threads_or_files(self) -> None:
        self.write("a.py", ERROR)
        words = [sys.executable, str(COMMAND), "a.py"]
        done = subprocess.run(
            words, cwd=self.folder, capture_output=True, env=variables({}),
            preexec_fn=lambda: resource.setrlimit(resource.RLIMIT_NOFILE, (6, 6)),
        )
        self.assertNotIn(b"Traceback", done.stderr)
        self.assertIn(done.returncode, (1, 3))
