"""A failing file or device is reported with the command, the file and the system's reason, and exit status 3."""
from __future__ import annotations

from pathlib import Path
from typing import List

from room import RoomCase, run

COMMANDS = {"pycheck": ["./pycheck"], "pyrun": ["./pyrun", "--fuel", "4"]}


class Faults(RoomCase):
    """Each command, with the same words except its name."""

    def check(self, file: str, reason: str, user: List[str]) -> None:
        """Asserts that each command gives this reason for the file, and prints nothing."""
        for name, words in COMMANDS.items():
            with self.subTest(name):
                done = self.run_few(*words, file, user=user)
                self.assertEqual((done.returncode, done.stdout, done.stderr), (3, "", f"{name}: {file}: {reason}\n"))

    def test_a_file_that_is_not_there(self) -> None:
        self.check("nope.py", "No such file or directory", [])

    def test_a_file_below_a_folder_that_is_not_there(self) -> None:
        self.check("nothing here/nöpe.py", "No such file or directory", [])

    def test_a_folder(self) -> None:
        self.check("examples", "Is a directory", [])

    def test_a_file_below_a_file(self) -> None:
        self.check("README.md/ages.py", "Not a directory", [])

    def test_no_right_to_read(self) -> None:
        user = self.require_nobody()
        (self.clone / "secret.py").write_text("", encoding="utf-8")
        (self.clone / "secret.py").chmod(0o000)
        for name in COMMANDS:
            self.run_few("tools/ship", "program", name)
        self.check("secret.py", "Permission denied", user)

    def test_a_full_device(self) -> None:
        if not Path("/dev/full").exists():
            self.skipTest("there is no /dev/full")
        for name, words in COMMANDS.items():
            with self.subTest(name), open("/dev/full", "wb", buffering=0) as full:
                done = run([*words, "examples/add.py"], self.clone, {"PATH": str(self.few)}, stdout=full)
                told = f"{name}: standard output: No space left on device\n"
                self.assertEqual((done.returncode, done.stderr), (3, told))

    def test_a_refusal_stays_as_it_is(self) -> None:
        (self.clone / "latin.py").write_bytes(b'print("caf\xe9")\n')
        for name, words in COMMANDS.items():
            with self.subTest(name):
                done = self.run_few(*words, "latin.py")
                self.assertEqual((done.returncode, done.stdout, done.stderr), (2, "", "refused S2 at byte 10\n"))
