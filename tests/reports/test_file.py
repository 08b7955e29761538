"""The choice of the files that are checked, their order, and their names."""
from __future__ import annotations

import os
import shutil
import subprocess
import sys
import traceback
import unittest

from support import CLEAN, COMMAND, DYNAMIC, ERROR, OPERATOR, REFUSED, Test, variables

GIT = shutil.which("git")


class Files(Test):
    """Files and folders that are named."""

    def paths(self, *words: str) -> "list[str]":
        """Returns the paths of the findings, in their order; each module of these tests has one."""
        return [line.partition(":")[0] for line in self.lines(*words)[:-1]]

    def test_order_of_a_folder(self) -> None:
        for name in ("b.py", "a/z.py", "a/B.py", "a-b.py", "ä.py", "Z.py", "a.py", "note.txt", "a/deep/er/x.py"):
            self.write(name, ERROR)
        wanted = ["Z.py", "a/B.py", "a/deep/er/x.py", "a/z.py", "a-b.py", "a.py", "b.py", "ä.py"]
        self.assertEqual(self.paths("."), wanted)

    def test_order_of_words_and_each_file_once(self) -> None:
        for name in ("b/1.py", "b/2.py", "a/1.py"):
            self.write(name, ERROR)
        words = ("b/2.py", "b", "./b/1.py", "a", "b/../a", str(self.folder / "a" / "1.py"))
        self.assertEqual(self.paths(*words), ["b/2.py", "b/1.py", "a/1.py"])

    def test_hidden_ones_are_left_out_of_folders_alone(self) -> None:
        for name in ("a.py", ".hidden.py", ".venv/b.py", "c/.d/e.py"):
            self.write(name, ERROR)
        self.assertEqual(self.paths("."), ["a.py"])
        self.assertEqual(self.paths(".hidden.py", ".venv"), [".hidden.py", ".venv/b.py"])

    def test_exclude(self) -> None:
        for name in ("a.py", "test_a.py", "old/b.py", "src/old/c.py", "src/made/d.py", "src/made/e.py"):
            self.write(name, ERROR)
        for patterns, wanted, number in (
            (("old",), ["a.py", "src/made/d.py", "src/made/e.py", "test_a.py"], 2),
            (("test_*",), ["a.py", "old/b.py", "src/made/d.py", "src/made/e.py", "src/old/c.py"], 1),
            (("src/old", "src/*/e.py"), ["a.py", "old/b.py", "src/made/d.py", "test_a.py"], 2),
            (("src/",), ["a.py", "old/b.py", "test_a.py"], 1),
        ):
            with self.subTest(patterns):
                words = [word for it in patterns for word in ("--exclude", it)]
                self.assertEqual(self.paths(*words, "."), wanted)
                self.assertTrue(self.lines(*words, ".")[-1].endswith(f", {number} left out by --exclude"))
        self.assertEqual(self.paths("--exclude", "a.py", "a.py"), ["a.py"])
        inside = str(self.folder / "src")
        self.assertEqual(len(self.paths("--exclude", "made/*", inside)), 1)
        self.assertEqual(len(self.paths("--exclude", f"{inside}/old", inside)), 2)

    @unittest.skipUnless(GIT, "there is no git")
    def test_what_git_ignores(self) -> None:
        for name in ("a.py", "made/b.py", "src/c.py", "src/made.py", "kept/made.py", "kept/d.py"):
            self.write(name, ERROR)
        self.write(".gitignore", "made/\nmade.py\n")
        self.write("kept/.gitignore", "!made.py\nd.py\n")
        self.assertEqual(len(self.paths(".")), 6)
        subprocess.run([str(GIT), "init", "-q"], cwd=self.folder, check=True)
        self.assertEqual(self.paths("."), ["a.py", "kept/made.py", "src/c.py"])
        self.assertEqual(self.paths("src"), ["src/c.py"])
        self.assertEqual(self.paths("src/made.py", "made"), ["src/made.py", "made/b.py"])
        subprocess.run([str(GIT), "add", "-f", "src/made.py"], cwd=self.folder, check=True)
        self.assertEqual(self.paths("src"), ["src/c.py", "src/made.py"])

    @unittest.skipUnless(GIT, "there is no git")
    def test_a_hook_of_git(self) -> None:
        self.write("a.py", ERROR)
        self.write("made.py", ERROR)
        self.write(".gitignore", "made.py\n")
        subprocess.run([str(GIT), "init", "-q"], cwd=self.folder, check=True)
        done = self.check(".", GIT_DIR="/nowhere", GIT_INDEX_FILE="/nowhere/index")
        self.assertEqual(done.output.splitlines()[0].partition(":")[0], "a.py")
        self.assertTrue(done.output.endswith("1 file: 1 error, 0 dynamic places\n"))

    def test_links_to_folders_are_not_followed(self) -> None:
        self.write("a/b.py", ERROR)
        (self.folder / "a" / "up").symlink_to("..")
        (self.folder / "link").symlink_to("a")
        (self.folder / "folder.py").symlink_to("a")
        self.assertEqual(self.paths("."), ["a/b.py"])
        self.assertEqual(self.paths("link"), ["link/b.py"])

    def test_standard_input(self) -> None:
        done = self.check("-", given=ERROR.encode())
        self.assertEqual((done.status, done.output.splitlines()[0]), (1, f"<stdin>:4:11: {OPERATOR}"))
        done = self.check("--stdin-name", "src/a b.py", "-", "-", given=REFUSED.encode())
        self.assertEqual(done.status, 2)
        self.assertEqual(
            done.output.splitlines(),
            ["src/a b.py:5:11: N2 refused: excluded operator", "1 file: 0 errors, 0 dynamic places, 1 refused"],
        )

    def test_a_file_that_can_be_read_once(self) -> None:
        pipe = self.folder / "pipe"
        os.mkfifo(pipe)
        writer = subprocess.Popen([sys.executable, "-c", f"open({str(pipe)!r}, 'w').write({ERROR!r})"])
        done = self.check("--output", "full", "pipe")
        writer.wait(60)
        self.assertEqual(done.output.splitlines()[1], '  4 |     print(1 + "a")')

    def test_a_path_that_each_process_reads_otherwise(self) -> None:
        path = self.write("a.py", ERROR)
        with open(path, "rb") as file:
            words = [sys.executable, str(COMMAND), "/dev/stdin"]
            done = subprocess.run(words, stdin=file, capture_output=True, env=variables({}))
        self.assertEqual(done.stdout.decode().splitlines()[0], f"/dev/stdin:4:11: {OPERATOR}")

    def test_names(self) -> None:
        for name in ("-a.py", " b .py", "größe 𐀀\u00a0.py", "c\nd.py", "e\x9b.py"):
            self.write(name, ERROR)
        with open(os.fsencode(self.folder) + b"/n\xff.py", "wb") as file:
            file.write(ERROR.encode())
        wanted = [" b .py", "-a.py", "c\\nd.py", "e\\x9b.py", "größe 𐀀\u00a0.py", "n\\xff.py"]
        self.assertEqual(self.lines(".")[:-1], [f"{name}:4:11: {OPERATOR}" for name in wanted])
        self.assertEqual(self.check("--", "-a.py").status, 1)

    def test_what_cannot_be_read(self) -> None:
        self.write("a.py", CLEAN)
        (self.folder / "b.py").symlink_to("nowhere")
        done = self.check(".", "missing.py")
        self.assertEqual(done.status, 3)
        reason = "cannot be read: No such file or directory"
        self.assertEqual(
            done.output.splitlines(),
            [f"b.py: {reason}", f"missing.py: {reason}", "3 files: 0 errors, 0 dynamic places, 2 not checked"],
        )

    def test_what_may_not_be_read(self) -> None:
        self.write("a.py", ERROR)
        self.write("b.py", ERROR).chmod(0)
        self.write("c/d.py", ERROR).parent.chmod(0)
        self.addCleanup((self.folder / "c").chmod, 0o700)
        if os.geteuid() == 0:
            shutil.copy(os.environ["PYCHECK"], self.folder / "pycheck")
            self.folder.chmod(0o755)
            output = self.as_nobody("--program", str(self.folder / "pycheck"), ".")
        else:
            output = self.check(".").output
        reason = "cannot be read: Permission denied"
        self.assertEqual(
            output.splitlines(),
            [
                f"a.py:4:11: {OPERATOR}",
                f"b.py: {reason}",
                f"c: {reason}",
                "3 files: 1 error, 0 dynamic places, 2 not checked",
            ],
        )

    def as_nobody(self, *words: str) -> str:
        """Returns the output of the command in a process without rights."""
        # Import lazy modules now, while they can be read
        import concurrent.futures.thread  # noqa: F401

        import pycheck_all
        from pycheck_all import command, concise, statistics  # noqa: F401

        ours, theirs = os.pipe()
        process = os.fork()
        if process == 0:
            try:
                os.chdir(self.folder)
                os.dup2(theirs, 1)
                os.setgid(65534)
                os.setuid(65534)
                os._exit(pycheck_all.main(words))
            except BaseException:
                traceback.print_exc()
            finally:
                os._exit(99)
        os.close(theirs)
        with open(ours, encoding="utf-8") as output:
            text = output.read()
        _, ended = os.waitpid(process, 0)
        self.assertEqual(os.WEXITSTATUS(ended), 3)
        return text

    def test_nothing_to_check(self) -> None:
        (self.folder / "empty").mkdir()
        done = self.check("empty")
        self.assertEqual(
            (done.status, done.output, done.error), (3, "", "check_all: error: no module to check in empty\n")
        )

    def test_status_is_the_worst(self) -> None:
        for name, text in (("a.py", CLEAN), ("b.py", DYNAMIC), ("c.py", ERROR), ("d.py", REFUSED)):
            self.write(name, text)
        statuses = [
            self.check(*words).status
            for words in (
                ["a.py"],
                ["a.py", "b.py"],
                ["c.py", "a.py"],
                ["d.py", "c.py"],
                ["missing.py", "d.py"],
                ["--strict", "a.py"],
                ["--strict", "b.py"],
            )
        ]
        self.assertEqual(statuses, [0, 0, 1, 2, 3, 0, 1])
