"""The module of WebAssembly in Node, beside the program."""
from __future__ import annotations

import base64
import itertools
import json
import os
import random
import re
import resource
import shutil
import subprocess
from pathlib import Path
from typing import Dict, Sequence, Tuple

from beside import EXAMPLES, FORMS, ROOT, WEB, RoomCase, large_module, made_modules, nearly_utf8, program, run

HERE = ROOT / "tests" / "web"
VOCABULARY = ("--json", "--format", "1", "2", "3", "--format=1", "--format=2", "--format=", "--format=1=2", "--json=1",
              "--json=", "--help=1", "--version=", "--", "-h", "-V", "--help", "--version", "-hV", "-Vx", "-xh", "a.py",
              "b.py", "-", "", "-x", "-\u00e9", "-\n", "--nope", "--forma", "--jsn", "--hlep", "--=", "--=1", "---", "--nosj",
              "--\U0001f40d", "--json --format", "x\ny", "'", "--a'b", "--jsonformat", "--verhelp", "--types", "--types=1",
              "--typs", "--type", "--details", "--details=1", "--detail", "--detials")
# The characters of misspelt names of options
LETTERS = "jsonfrmathelpviy-"
# Lines with which the command itself is started: each kind of mistake, and requests beside one
MISTAKES = ((), ("--nope",), ("--nope", "a.py"), ("a.py", "--nope"), ("--json", "--nope"), ("--forma",), ("a.py", "--fromat"),
            ("--h",), ("--vers",), ("--js", "--format", "1"), ("-x",), ("-jh",), ("a.py", "b.py"), ("--", "a.py", "--b"),
            ("--",), ("--json",), ("--format",), ("--format", "--"), ("--format", "a.py"), ("--format", "-x"),
            ("--format", "--json", "a.py"), ("--format", "3", "a.py"), ("--format=", "a.py"), ("--format=1=2", "a.py"),
            ("--format=1", "--format=2", "a.py"), ("--json", "--json", "a.py"), ("--json=1", "a.py"), ("--help=1",),
            ("--format", "1", "--json=1"), ("--json", "--help=1"), ("--format", "--help"), ("a.py", "b.py", "--help"),
            ("--types",), ("--types", "--types", "a.py"), ("--types=1", "a.py"), ("--types", "--format", "2", "a.py"),
            ("--format=1", "a.py", "--types"), ("--types", "--format", "3", "a.py"), ("--types", "--format", "2"),
            ("--types", "--json", "--nope"), ("--type", "a.py"), ("--json", "--typs"), ("--details",),
            ("--details", "--details", "a.py"), ("--details=1", "a.py"), ("--details", "--format", "2", "a.py"),
            ("--format=3", "a.py", "--details"), ("--details", "a.py", "--types"), ("--types", "--details", "--format", "2", "a.py"),
            ("--detials", "a.py"), ("--json", "--detail"))
ORDERS = 400
# How many times as long as the program the check of a large module may take, once the engine has compiled it
SLOWER = 2
# How many processes of each take turns when their times are compared
ROUNDS = 6


class Node(RoomCase):
    """Reports, words and faults."""

    def compare(self, files: Sequence[Path]) -> None:
        """Asserts that the module answers each file in each form as the program does."""
        lines = "".join(f"{it}\n" for it in files).encode()
        done = run(*self.need_node(), HERE / "reports.mjs", input=lines)
        self.assertEqual(done.returncode, 0, done.stderr.decode())
        said = done.stdout.decode().splitlines()
        self.assertEqual(len(said), len(files) * len(FORMS))
        for number, line in enumerate(said):
            file, form = files[number // len(FORMS)], FORMS[number % len(FORMS)]
            status, out, err = program(*form, file)
            found, _, text = line.partition(" ")
            given = (int(found), base64.b64decode(text), b"") if status < 2 else (int(found), b"", f"{text}\n".encode())
            self.assertEqual(given, (status, out, err), (file, form))

    def test_reports_and_types_of_all_examples(self) -> None:
        self.assertGreater(len(EXAMPLES), 90)
        self.compare(EXAMPLES)

    def test_reports_and_types_of_modules_made_at_random(self) -> None:
        self.compare(self.files(made_modules()))

    def test_bytes_that_are_nearly_utf8(self) -> None:
        """Bytes that are nearly UTF-8 use the one instruction of x86-64 that is replaced by one of WebAssembly."""
        self.compare(self.files(nearly_utf8()))

    def test_reports_and_types_of_the_longest_texts(self) -> None:
        texts = [large_module(1_000_000), b"#" * 1_048_576, b"#" * 1_048_577, b"", b"\xef\xbb\xbf", b"\0", b"\xff"]
        self.compare(self.files(texts))

    def test_types_at_single_bytes(self) -> None:
        """They are those of rows that were worked by hand: the page has its own code for what `type_at` of `pc_top` does."""
        table = (ROOT / "crates" / "test_tables" / "data" / "reports" / "types.listed").read_text(encoding="utf-8")
        rows = re.findall(r"^(\d+)\n(.*?)  ⇒ ([^\n]*)$", table.partition("\n§ AT:")[2], flags=re.M | re.S)
        self.assertGreater(len(rows), 10)
        lines = [f"{byte} {base64.b64encode(text.encode()).decode()}\n" for byte, text, _ in rows]
        done = run(*self.need_node(), HERE / "types.mjs", input="".join(lines).encode())
        self.assertEqual(done.stdout.decode().splitlines(), [found for _, _, found in rows], done.stderr.decode())

    def test_the_deepest_texts(self) -> None:
        """Texts as deep as the profile allows, and one step deeper, are answered: the engine's own stack suffices."""
        head, tail = "from __future__ import annotations\ndef main():\n", "main()\n"
        texts = [f"{head} x = {'-' * depth}1\n{tail}" for depth in (61, 62, 63, 64, 65)]
        texts += [f"{head} x = {'(' * depth}1{')' * depth}\n{tail}" for depth in (63, 64, 65)]
        texts += [f"{head} x = {'[' * depth}{']' * depth}\n{tail}" for depth in (61, 62, 63, 64)]
        for depth in (46, 47, 48, 49, 50, 51):
            suites = "".join(f"{' ' * it}if True:\n" for it in range(1, depth))
            texts.append(f"{head}{suites}{' ' * depth}x = {'-' * 60}1\n{tail}")
        self.compare(self.files([it.encode() for it in texts]))

    def test_memory_that_ends(self) -> None:
        files = [ROOT / "examples" / f"{name}.py" for name in ("ages", "clean", "dynamic")]
        done = run(*self.need_node(), HERE / "memory.mjs", WEB / "pycheck.wasm", *files)
        self.assertEqual(done.returncode, 0, done.stderr.decode())
        self.assertRegex(done.stdout.decode(), "^{0}{0}$".format(r"\w+: [1-9]\d+ wanting, [1-9]\d* own\n"))

    def test_the_largest_module_is_fast(self) -> None:
        """Time is measured in seconds of the processor, since other work may take it meanwhile. That work also takes the
        caches, and how the pages of a process lie in them can double its time: so several processes of each take turns,
        and the least counts.
        """
        file = self.files([large_module(800_000)])[0]
        alone, first, warm = [], [], []
        for _ in range(ROUNDS):
            begun = resource.getrusage(resource.RUSAGE_CHILDREN)
            program("--json", file)
            ended = resource.getrusage(resource.RUSAGE_CHILDREN)
            alone.append(ended.ru_utime + ended.ru_stime - begun.ru_utime - begun.ru_stime)
            done = run(*self.need_node(), HERE / "speed.mjs", file)
            self.assertEqual(done.returncode, 0, done.stderr.decode())
            spent = [float(it) for it in done.stdout.split()]
            first.append(spent[0])
            warm += spent[1:]
        print(f"0.8 MB: {min(warm):.3f} s warm, {min(first):.3f} s at first; the program {min(alone):.3f} s")
        self.assertLess(min(warm), SLOWER * min(alone))


class Command(RoomCase):
    """web/pycheck.mjs."""

    def said(self, *words: object) -> Tuple[int, bytes, bytes]:
        """Returns the status of the command for these words, and its output and error output."""
        done = run(*self.need_node(), WEB / "pycheck.mjs", *words, cwd=self.room)
        return done.returncode, done.stdout, done.stderr

    def test_each_example(self) -> None:
        for number, file in enumerate(EXAMPLES):
            words = (*FORMS[number % len(FORMS)], file)
            self.assertEqual(self.said(*words), program(*words), words)

    def test_files_that_cannot_be_read(self) -> None:
        (self.room / "loop").symlink_to("loop")
        (self.room / "file").touch()
        for words in (("nope.py",), ("",), ("--", "-a"), (".",), ("nope/x.py",), ("file/x.py",), ("x" * 300,), ("loop",),
                      ("/proc/self/mem",)):
            self.assertEqual(self.said(*words), program(*words, cwd=self.room), words)

    def test_help_and_version(self) -> None:
        for word in ("--help", "-h", "--version", "-V", "-hx", "-Vh"):
            self.assertEqual(self.said(word), program(word))

    def compare_words(self, orders: Sequence[Sequence[str]]) -> Dict[str, int]:
        """Asserts that each list of words asks for the same as with the program, and that a mistake has the same
        message. Returns how many there are of each."""
        (self.room / "a.py").write_bytes((ROOT / "examples" / "dynamic.py").read_bytes())
        lines = "".join(json.dumps(it) + "\n" for it in orders).encode()
        done = run(*self.need_node(), HERE / "words.mjs", input=lines)
        self.assertEqual(len(done.stdout.splitlines()), len(orders), done.stderr)
        kinds = {"help": 0, "mistake": 0, "file": 0, "similar": 0, "types": 0, "details": 0}
        for words, line in zip(orders, done.stdout.splitlines()):
            found, wanted = json.loads(line), program(*words, cwd=self.room)
            kind = next(it for it in kinds if it in found)
            kinds[kind] += 1
            kinds["similar"] += b"a similar argument exists" in wanted[2]
            if kind == "file":
                kinds["types"] += found["types"]
                kinds["details"] += found["details"]
                form = next((["--" + it] for it in ("types", "details") if found[it]), ["--format", found["format"]])
                plain = (*["--json"] * found["json"], *form, "--", found["file"])
                self.assertEqual(program(*plain, cwd=self.room), wanted, words)
            elif kind == "help":
                self.assertEqual((0, found["help"].encode(), b""), wanted, words)
            else:
                self.assertEqual((3, b"", found["mistake"].encode()), wanted, words)
        return kinds

    def test_words(self) -> None:
        """Words in any order, and misspelt options, are read as by the program."""
        rng = random.Random("words")
        orders = [[rng.choice(VOCABULARY) for _ in range(rng.randint(0, 4))] for _ in range(ORDERS)]
        for _ in range(ORDERS):
            misspelt = "--" + "".join(rng.choice(LETTERS) for _ in range(rng.randint(1, 9)))
            orders.append([*["--json", "a.py"][:rng.randint(0, 2)], misspelt])
        kinds = self.compare_words(orders)
        self.assertGreater(min(kinds[it] for it in ("help", "mistake", "file", "similar")), 10, kinds)

    def test_words_with_types_and_details(self) -> None:
        """Each order of up to four of these words is read as by the program."""
        words = ("--types", "--details", "--json", "a.py", "--format", "2")
        kinds = self.compare_words([order for count in range(5) for order in itertools.permutations(words, count)])
        self.assertGreater(min(kinds[it] for it in ("mistake", "file", "types", "details")), 10, kinds)

    def test_details_are_told_by_the_program_alone(self) -> None:
        for words in (("--details", EXAMPLES[0]), ("--json", "--details", "nope.py")):
            said = b"pycheck: the module of WebAssembly tells no details, only the program does\n"
            self.assertEqual(self.said(*words), (3, b"", said), words)

    def test_mistakes(self) -> None:
        """Each kind of mistake has the bytes and the status that it has in the program."""
        for words in MISTAKES:
            found = self.said(*words)
            self.assertEqual(found, program(*words, cwd=self.room), words)
            self.assertEqual((found[0], found[1], found[2][:7]), (3, b"", b"error: "), words)

    def test_types_of_each_example(self) -> None:
        listed = 0
        for number, file in enumerate(EXAMPLES):
            words = (*(("--types",), ("--json", "--types"), ("--types", "--"))[number % 3], file)
            found = self.said(*words)
            self.assertEqual(found, program(*words), words)
            listed += found[0] < 2 and found[1] not in (b"", b'{"types":[]}\n')
        self.assertGreater(listed, 40)

    def test_words_that_are_not_utf8(self) -> None:
        command = [*self.need_node(), str(WEB / "pycheck.mjs")]
        for word in (b"\xff", b"--\xff", b"a\xed\xa0\x80.py", "\ufffd.py".encode()):
            done, wanted = (subprocess.run([*it, word], capture_output=True, cwd=self.room)
                            for it in (command, [os.environ["PYCHECK"]]))
            self.assertEqual((done.returncode, done.stderr), (wanted.returncode, wanted.stderr), word)
            self.assertEqual(b"is not UTF-8" in done.stderr, word != "\ufffd.py".encode())

    def test_output_that_cannot_be_written(self) -> None:
        commands = ([*self.need_node(), str(WEB / "pycheck.mjs")], [os.environ["PYCHECK"]])
        for words in (["--help"], ["--version"], [str(EXAMPLES[0])], ["--types", str(EXAMPLES[0])]):
            with open("/dev/full", "wb") as full:
                found, wanted = (subprocess.run([*it, *words], stdout=full, stderr=subprocess.PIPE) for it in commands)
            self.assertEqual((found.returncode, found.stderr), (wanted.returncode, wanted.stderr), words)
            self.assertEqual(found.returncode, 3, words)

    def test_a_module_with_another_sum_is_not_run(self) -> None:
        shutil.copytree(WEB, self.room / "web")
        wasm = self.room / "web" / "pycheck.wasm"
        wasm.write_bytes(wasm.read_bytes() + b"\0\1\0")
        done = run(*self.need_node(), self.room / "web" / "pycheck.mjs", EXAMPLES[0])
        self.assertEqual((done.returncode, done.stdout), (3, b""))
        self.assertIn(b"pycheck.wasm is not the module of SHA256SUMS, so nothing is run", done.stderr)

    def test_without_the_flag_that_older_versions_need(self) -> None:
        node = self.need_node()[0]
        self.assertEqual(run(node, WEB / "pycheck.mjs", EXAMPLES[0]).stdout, program(EXAMPLES[0])[1])

    def test_the_package(self) -> None:
        npm = self.need("npm")
        words = ("--offline", "--no-audit", "--no-fund", "--cache", self.room / "cache")
        packed = run(npm, "pack", *words, WEB, cwd=self.room)
        self.assertEqual(packed.returncode, 0, packed.stderr.decode())
        file = packed.stdout.decode().split()[-1]
        done = run(npm, "install", *words, "--prefix", self.room / "there", self.room / file, cwd=self.room)
        self.assertEqual(done.returncode, 0, done.stderr.decode())
        command = self.room / "there" / "node_modules" / ".bin" / "pycheck"
        done = run(command, EXAMPLES[0])
        self.assertEqual((done.returncode, done.stdout, done.stderr), program(EXAMPLES[0]))

    def test_where_the_program_does_not_serve_this_command_does(self) -> None:
        node = self.need_node()[0]
        tools = self.room / "tools"
        tools.mkdir()
        (tools / "uname").write_text("#!/bin/sh\necho Darwin arm64\n", encoding="utf-8")
        (tools / "uname").chmod(0o755)
        clone = self.room / "clone"
        for part in ("tools/ship", "tools/shipping/program", "release/PROGRAMS", "release/SHA256SUMS", "pycheck"):
            (clone / part).parent.mkdir(parents=True, exist_ok=True)
            shutil.copy(ROOT / part, clone / part)
        shutil.copytree(WEB, clone / "web")
        (clone / "crates").mkdir()
        for file in EXAMPLES[:3]:
            path = f"{tools}:{Path(node).parent}:/usr/bin:/bin"
            done = run(clone / "pycheck", "--json", file, env={"PATH": path})
            self.assertEqual((done.returncode, done.stdout, done.stderr), program("--json", file))
