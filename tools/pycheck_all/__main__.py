"""The command as `python -m pycheck_all`.

Python looks for each module first in the folder in which it runs, unless `-I` or `-P` forbids it. That folder may be
the one to check, and none of its code may run, so it is taken off the path before anything is imported. If it has a
module with the name of one that Python had loaded by then, the folder's module may have run in its place; nothing is
checked in that case."""
import sys

is_apart = bool(sys.flags.isolated or getattr(sys.flags, "safe_path", False))
if __name__ == "__main__" and not is_apart:
    del sys.path[0]

import importlib.machinery  # noqa: E402
import os  # noqa: E402


def stand_ins(folder: str) -> "list[str]":
    """Returns the names of modules that are loaded already and that the folder has too."""
    loaded = {it.partition(".")[0].lower() for it in sys.modules} - {"__main__"}
    suffixes = importlib.machinery.all_suffixes()
    found = []
    for name in sorted(os.listdir(folder)):
        stems = [name[: -len(it)] for it in suffixes if name.endswith(it)]
        path = os.path.join(folder, name)
        if os.path.isdir(path):
            stems = [name for it in suffixes if os.path.lexists(os.path.join(path, f"__init__{it}"))]
        if any(it.lower() in loaded for it in stems):
            found.append(name)
    return found


def why_not() -> str:
    """Returns why nothing is checked; empty if no code of the folder ran."""
    try:
        found = stand_ins(os.curdir)
    except OSError as fault:
        return f"the folder in which it runs cannot be looked at: {fault.strerror}"
    if not found:
        return ""
    return f"Python looked for modules in the folder in which it runs first, and may have run {ascii(found[0])} there"


if __name__ == "__main__":
    told = "" if is_apart else why_not()
    if told:
        print(f"pycheck_all: error: {told}: write `python -I -m pycheck_all`, or `pycheck-all`", file=sys.stderr)
        sys.exit(3)
    from . import main

    sys.exit(main())
