"""Files that git ignores, found without git: compared with git if there is one, and shown to run nothing in a
folder."""
from __future__ import annotations

import os
import random
import shutil
import subprocess
import sys
import unittest
from pathlib import Path
from typing import Dict, Iterator, List, Sequence, Set

from support import COMMAND, ERROR, Test, variables

from pycheck_all import ignored, patterns, tracked

GIT = shutil.which("git")
NAMES = ["a", "b", "ab", "a.py", "b.py", "a b", "[a]", "*", "!a", "#a", "a\\", "\\a", "\xe4", "A", "a ", "]", "-", "^"]
PIECES = [
    "a", "b", "a", "b", "/", "/", "/", "*", "*", "**", "**/", "/**", "/**/", "?", "[ab]", "[!a]", "[^b]", "[a-c]",
    "[]a]", "[[:alpha:]]", "[![:alpha:]]", "[[:no:]]", "[[:]", "[a", "[a-]", "[\\]]", "[--a]", "[[:al", "\\", "\\a",
    "\\*", "\\ ", " ", "!", "#", ".py", ".", "*.py", "\xe4", "]", "-", "\\/", "\t",
]  # fmt: skip
# The ends of lines, and the beginning of a file
ENDS = ["\n", "\n", "\n", "\r\n", " \n", "  \n", "\\ \n", "\n\n", "\r\r\n", "\0x\n", "\t\n"]


def pattern_of(rng: random.Random) -> str:
    """Returns a pattern at random."""
    begin = rng.choice(["", "", "", "", "!", "/", "#", "\\!", "\\#", "**/"])
    return begin + "".join(rng.choice(PIECES) for _ in range(rng.randrange(1, 5))) + rng.choice(["", "", "", "/", "/"])


def patterns_of(rng: random.Random, most: int) -> bytes:
    """Returns a file of patterns at random."""
    lines = [pattern_of(rng) + rng.choice(ENDS) for _ in range(rng.randrange(1, most))]
    text = rng.choice(["", "", "", "\ufeff"]) + "".join(lines)
    return (text if rng.randrange(4) else text.rstrip("\n")).encode()


class Repositories(Test):
    """Repositories that a test makes by git."""

    def setUp(self) -> None:
        super().setUp()
        if not GIT:
            self.skipTest("there is no git")
        self.home = self.folder / "home"
        self.top = self.folder / "top"
        for it in (self.home, self.top):
            it.mkdir()

    def git(self, *words: str, cwd: "Path | None" = None, given: bytes = b"") -> bytes:
        """Runs git, with no configuration but that of the test's own home."""
        settings = {"HOME": str(self.home), "XDG_CONFIG_HOME": None, "GIT_CONFIG_NOSYSTEM": "1"}
        done = subprocess.run(
            [str(GIT), "-c", "user.name=a", "-c", "user.email=a", "-c", "protocol.file.allow=always", *words],
            cwd=cwd or self.top, input=given, env=variables(settings), capture_output=True,
        )
        self.assertIn(done.returncode, (0, 1), done.stderr)
        return done.stdout

    def kept_by_git(self, cwd: "Path | None" = None) -> Set[str]:
        """Returns the modules that git does not ignore."""
        cwd = cwd or self.top
        names = self.git("ls-files", "-z", "--cached", "--others", "--exclude-standard", cwd=cwd).split(b"\0")
        modules = (os.fsdecode(it) for it in names if it.endswith(b".py"))
        return {it for it in modules if os.path.lexists(cwd / it) and not it.startswith(".") and "/." not in it}

    def kept_here(self, cwd: "Path | None" = None) -> Set[str]:
        """Returns the modules that the walk finds."""
        from pycheck_all.files import Walk

        before, folder = {it: os.environ.get(it) for it in ("HOME", "XDG_CONFIG_HOME")}, os.getcwd()
        os.environ.update(HOME=str(self.home))
        os.environ.pop("XDG_CONFIG_HOME", None)
        try:
            os.chdir(cwd or self.top)
            return {it.path for it in Walk(()).modules(".")}
        finally:
            os.chdir(folder)
            for name, value in before.items():
                os.environ.pop(name, None)
                os.environ.update({name: value} if value is not None else {})

    def agree(self, cwd: "Path | None" = None) -> Set[str]:
        """Asserts that both find the same modules, and returns them."""
        found = self.kept_here(cwd)
        self.assertEqual(sorted(found), sorted(self.kept_by_git(cwd)))
        return found


class BesideGit(Repositories):
    """The same answers as git's."""

    def paths(self, rng: random.Random) -> Iterator[str]:
        """Yields some paths at random, none of which is a folder of another one."""
        met: Set[str] = set()
        for _ in range(40):
            names = [rng.choice(NAMES) for _ in range(rng.randrange(1, 5))]
            path = "/".join(names)
            above = {"/".join(names[:at]) for at in range(1, len(names))}
            if path not in met and not above & met and not any(it.startswith(path + "/") for it in met):
                met.add(path)
                yield path

    def test_patterns_at_random(self) -> None:
        self.git("init", "-q")
        for seed in range(150):
            rng = random.Random(f"patterns/{seed}")
            paths = sorted(self.paths(rng))
            data = patterns_of(rng, 5)
            shutil.rmtree(self.top / ".git" / "info", ignore_errors=True)
            for path in paths:
                os.makedirs((self.top / path).parent, exist_ok=True)
                (self.top / path).write_text("")
            (self.top / ".gitignore").write_bytes(data)
            asked = "".join(f"./{it}\0" for it in paths).encode()
            said = self.git("check-ignore", "--no-index", "--stdin", "-z", given=asked)
            wanted = {os.fsdecode(it)[2:] for it in said.split(b"\0") if it}
            self.assertEqual({it for it in paths if self.ignored(it)}, wanted, (seed, data))
            for path in self.top.iterdir():
                if path.name != ".git":
                    shutil.rmtree(path) if path.is_dir() else path.unlink()

    def ignored(self, path: str) -> bool:
        """Whether the patterns leave a file out."""
        rules = ignored.Repository(str(self.top), "", "").rules()
        names, folder = path.encode().split(b"/"), str(self.top)
        for name in names[:-1]:
            folder = os.path.join(folder, os.fsdecode(name))
            rules = rules.inside(name, folder)
        return rules.leave_out(names[-1], False)

    def test_trees_at_random(self) -> None:
        for seed in range(40):
            with self.subTest(seed):
                self.tree(random.Random(f"trees/{seed}"))

    def tree(self, rng: random.Random) -> None:
        """Makes a repository at random, and compares the modules that are left, in it and in a folder of it."""
        shutil.rmtree(self.top)
        self.top.mkdir()
        self.git("init", "-q")
        folders = {self.top}
        for path in sorted(self.paths(rng)):
            file = self.top / (path + "x.py")
            os.makedirs(file.parent, exist_ok=True)
            file.write_text("")
            folders.add(file.parent)
        every = sorted(folders)
        for folder in rng.sample(every, min(len(every), 3)):
            (folder / ".gitignore").write_bytes(patterns_of(rng, 4))
        os.makedirs(self.top / ".git" / "info", exist_ok=True)
        (self.top / ".git" / "info" / "exclude").write_bytes(patterns_of(rng, 3))
        os.makedirs(self.home / ".config" / "git", exist_ok=True)
        (self.home / ".config" / "git" / "ignore").write_bytes(patterns_of(rng, 3))
        modules = sorted(str(it.relative_to(self.top)) for it in self.top.rglob("*.py") if it.is_file())
        forced = rng.sample(modules, len(modules) // 4)
        version = str(rng.choice((2, 3, 4)))
        self.git("update-index", "--force-untracked-cache", f"--index-version={version}")
        self.git("--literal-pathspecs", "add", "-f", "--", *forced)
        self.agree()
        inner = rng.choice(every)
        # Git reports nothing in a folder that is itself ignored, while such a folder is checked if it is named
        if self.kept_by_git(inner):
            self.agree(inner)


class Kinds(Repositories):
    """Forms of a checkout."""

    def setUp(self) -> None:
        super().setUp()
        for name in ("a.py", "made.py", "made/b.py", "src/made.py", "src/c.py", "kept/made.py"):
            self.write(f"top/{name}", ERROR)
        self.write("top/.gitignore", "made.py\nmade/\n")
        self.git("init", "-q")
        self.git("add", "-f", "src/made.py", ".gitignore")
        self.git("commit", "-qm", "a")
        self.wanted = {"a.py", "src/made.py", "src/c.py"}

    def test_each_version_of_the_index(self) -> None:
        for version in ("2", "3", "4"):
            self.git("update-index", f"--index-version={version}")
            self.git("add", "-N", "a.py")
            self.assertEqual(self.agree(), self.wanted)

    def test_a_split_index(self) -> None:
        self.git("update-index", "--split-index")
        self.write("top/made.py", ERROR)
        self.git("add", "-f", "made.py")
        self.assertTrue(any(it.name.startswith("sharedindex.") for it in (self.top / ".git").iterdir()))
        self.assertEqual(self.agree(), self.wanted | {"made.py"})

    def test_sums_of_32_bytes(self) -> None:
        shutil.rmtree(self.top / ".git")
        self.git("init", "-q", "--object-format=sha256")
        self.git("add", "-f", "src/made.py")
        self.assertEqual(self.agree(), self.wanted)

    def test_a_sparse_index(self) -> None:
        self.git("add", "-f", "made/b.py", "kept/made.py")
        self.git("commit", "-qm", "b")
        self.git("sparse-checkout", "init", "--cone", "--sparse-index")
        self.git("sparse-checkout", "set", "src")
        self.assertEqual(self.agree(), {"a.py", "src/made.py", "src/c.py"})
        found = tracked.tracked_by(str(self.top / ".git"))
        assert found is not None
        self.assertTrue(found.has(b"made/b.py", False) and found.has(b"kept", True))

    def test_a_worktree_and_a_submodule(self) -> None:
        self.git("worktree", "add", "-q", str(self.folder / "other"), "-b", "b")
        self.write("other/made.py", ERROR)
        self.write("other/own.py", ERROR)
        self.write("top/.git/info/exclude", "own.py\n")
        self.assertEqual(self.agree(self.folder / "other"), {"src/made.py"})
        self.git("submodule", "add", "-q", str(self.top), "inner")
        self.write("top/inner/made.py", ERROR)
        self.write("top/inner/d.py", ERROR)
        self.assertTrue((self.top / "inner" / ".git").is_file())
        self.assertEqual(self.agree(self.top / "inner"), {"src/made.py", "d.py"})
        self.assertEqual(self.kept_here(), self.wanted | {"inner/src/made.py", "inner/d.py"})

    def test_the_users_own_file(self) -> None:
        own = self.write("patterns", "a.py\n")
        for line in (
            f"excludesFile = {own}",
            f'excludesfile="{own}" ; why',
            "excludesFile = ~/mine\n\tbare",
            f"x = 1\n\texcludesfile={own}",
        ):
            with self.subTest(line):
                self.write("home/mine", "a.py\n")
                self.write("home/.gitconfig", f"[user]\n\texcludesFile = /a\n[Core]\n\t{line}\n[alias]\n\tx = y\n")
                self.assertEqual(self.agree(), self.wanted - {"a.py"})
        self.write("home/.gitconfig", '[core "a"]\n\texcludesFile = /nowhere\n')
        self.write("home/.config/git/ignore", "c.py\n")
        self.assertEqual(self.agree(), self.wanted - {"src/c.py"})

    def test_a_repository_in_an_ignored_folder(self) -> None:
        self.git("init", "-q", "made/own")
        self.write("top/made/own/d.py", ERROR)
        self.git("init", "-q", "lib")
        self.write("top/lib/made.py", ERROR)
        self.assertEqual(self.kept_here(), self.wanted | {"lib/made.py"})
        self.assertEqual(self.kept_here(self.top / "made"), {"b.py", "own/d.py"})

    def test_an_index_that_is_broken(self) -> None:
        every = self.wanted | {"made.py", "made/b.py", "kept/made.py"}
        index = self.top / ".git" / "index"
        whole = index.read_bytes()
        for data in (b"", b"DIRC", whole[:-30], whole[:30], b"DIRC" + b"\0\0\0\x04" + b"\xff" * 400, whole + b"x" * 9):
            with self.subTest(data):
                index.write_bytes(data)
                self.assertEqual(self.kept_here(), every)
        index.unlink()
        index.symlink_to("/dev/zero")
        self.assertEqual(self.kept_here(), every)
        index.unlink()
        self.assertEqual(self.kept_here(), self.wanted - {"src/made.py"})


class Hostile(Test):
    """Folders that would make git run a command: it leaves no trace."""

    def setUp(self) -> None:
        super().setUp()
        self.trace = self.folder / "trace"
        self.config = f'[core]\n\tbare = false\n\tworktree = .\n\tfsmonitor = "touch {self.trace}; false"\n'

    def repository(self, folder: str) -> None:
        """Makes a folder a repository of git."""
        self.write(f"{folder}/HEAD", "ref: refs/heads/main\n")
        self.write(f"{folder}/objects/.keep", "")
        self.write(f"{folder}/refs/.keep", "")
        self.write(f"{folder}/config", "[core]\n\trepositoryformatversion = 0\n" + self.config)

    def assert_silent(self, *words: str, found: Sequence[str]) -> None:
        """Asserts that a check finds these files, and leaves no trace."""
        paths = [it.partition(":")[0] for it in self.lines(*words)[:-1]]
        self.assertEqual(paths, list(found))
        self.assertFalse(self.trace.exists())

    def test_an_archive_with_a_repository(self) -> None:
        self.write("archive/a.py", ERROR)
        self.repository("archive/.git")
        self.config = self.config.replace("\tworktree = .\n", "")
        self.repository("plain/.git")
        self.write("plain/b.py", ERROR)
        self.assert_silent("archive", "plain", found=["archive/a.py", "plain/b.py"])

    def test_a_repository_deeper_in_the_tree(self) -> None:
        self.write("top/a.py", ERROR)
        self.write("top/b/c/d.py", ERROR)
        self.config = self.config.replace("\tworktree = .\n", "")
        self.repository("top/b/c/.git")
        self.assert_silent("top", found=["top/a.py", "top/b/c/d.py"])

    @unittest.skipUnless(GIT, "there is no git")
    def test_a_clone_with_a_bare_layout(self) -> None:
        self.repository("made/src")
        self.write("made/src/a.py", ERROR)
        plain = variables({"HOME": str(self.folder)})
        git = [str(GIT), "-c", "user.name=a", "-c", "user.email=a"]
        for words in (["init", "-q"], ["add", "."], ["commit", "-qm", "a"]):
            subprocess.run([*git, *words], cwd=self.folder / "made", env=plain, check=True)
        subprocess.run([*git, "clone", "-q", "made", "clone"], cwd=self.folder, env=plain, check=True)
        self.assertFalse(self.trace.exists())
        self.assert_silent("clone/src", found=["clone/src/a.py"])
        self.assert_silent("clone", found=["clone/src/a.py"])

    def test_files_that_point_to_a_repository(self) -> None:
        self.config = self.config.replace("\tworktree = .\n", "")
        self.repository("elsewhere")
        links = ("gitdir: ../elsewhere\n", f"gitdir: {self.folder}/elsewhere", "gitdir: /dev", "x")
        for name, link in zip("abcd", links):
            self.write(f"{name}/.git", link)
            self.write(f"{name}/m.py", ERROR)
        (self.folder / "e").mkdir()
        os.mkfifo(self.folder / "e" / ".git")
        os.mkfifo(self.folder / "e" / ".gitignore")
        self.write("e/m.py", ERROR)
        self.assert_silent(*"abcde", found=[f"{it}/m.py" for it in "abcde"])

    def test_no_process_but_the_program_is_started(self) -> None:
        self.write("top/a.py", ERROR)
        self.repository("top/.git")
        git = self.write("bin/git", f"#!/bin/sh\ntouch {self.trace}\n")
        git.chmod(0o755)
        starts = ("subprocess.Popen", "os.system", "os.exec", "os.fork", "os.forkpty", "os.posix_spawn", "pty.spawn")
        watch = (
            "import sys, runpy\n"
            "def heard(event, words):\n"
            f"    if event in {starts}:\n"
            "        print('started', words[0], file=sys.stderr)\n"
            "sys.addaudithook(heard)\n"
            "sys.argv = sys.argv[1:]\n"
            "runpy.run_path(sys.argv[0], run_name='__main__')\n"
        )
        words = [sys.executable, "-c", watch, str(COMMAND), "top"]
        settings = variables({"PATH": f"{git.parent}:{os.environ['PATH']}"})
        done = subprocess.run(words, cwd=self.folder, capture_output=True, env=settings)
        started = set(done.stderr.decode().splitlines())
        self.assertEqual(started, {f"started {os.environ['PYCHECK']}"})
        self.assertEqual(done.returncode, 1)
        self.assertFalse(self.trace.exists())

    def test_patterns_that_would_take_long(self) -> None:
        self.write("top/.git/HEAD", "")
        for name in ("objects", "refs"):
            (self.top_git() / name).mkdir()
        self.write("top/" + "a" * 200 + "/" + "a" * 200 + "/b.py", ERROR)
        hard = ["*a" * 120 + "c", "**/" + "a/**/" * 100 + "x", "/" + "*a*" * 300, "[!b]*" * 90 + "x/", "(a+)+" * 20]
        self.write("top/.gitignore", "".join(f"{it}\n" for it in hard * 20))
        done = self.check("top")
        self.assertEqual(done.status, 1)

    def top_git(self) -> Path:
        """Returns the folder of git of the test's repository."""
        return self.folder / "top" / ".git"


class Patterns(unittest.TestCase):
    """Patterns, worked by hand from git's page of them."""

    def test_each_rule(self) -> None:
        cases: Dict[str, List[str]] = {
            "a": ["a", "b/a"], "/a": ["a"], "b/a": ["b/a"], "*": ["a", "b/a", "c/b/a"], "/*": ["a"],
            "b/*": ["b/a"], "b/**": ["b/a"], "**/a": ["a", "b/a", "c/b/a"], "c/**/a": ["c/b/a"],
            "?": ["a", "b/a", "c/b/a"], "[a-b]": ["a", "b/a", "c/b/a"], "[!a]": [],
            "\\a": ["a", "b/a", "c/b/a"], "a/": [], "#a": [], "a ": ["a", "b/a", "c/b/a"], "a\\ ": [], "[": [], "": [],
        }  # fmt: skip
        cases["a"].append("c/b/a")
        for text, wanted in cases.items():
            with self.subTest(text):
                listed = patterns.Patterns(text.encode() + b"\n", b"")
                found = [it for it in ("a", "b/a", "c/b/a") if listed.say(it.encode(), it.encode()[-1:], False)]
                self.assertEqual(found, wanted)
