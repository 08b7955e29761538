"""The command: reads its words, checks the files, and shows the findings."""
from __future__ import annotations

import os
import shutil
import signal
import sys
from typing import Iterator, List, Optional, Sequence

from . import baseline, explaining, guards, hiding, program, running, scope, settings, texts, words
from .files import Files
from .findings import Project, summary
from .outputs import Links

FAILED = 3
INTERRUPTED = 128 + signal.SIGINT
DOCUMENTS = ("json", "gitlab", "sarif", "junit")


class Failure(Exception):
    """The run cannot continue; the text says why."""


# Failures that are reported in one line, without a traceback
FAULTS = (Failure, program.NoProgram, baseline.NoBaseline, guards.NoGuards, settings.NoSettings)


def main() -> int:
    """The command of the wheel. Returns the exit status."""
    return run()


def run(given: Optional[Sequence[str]] = None, name: str = "pycheck-all") -> int:
    """Runs the command with the given words, or with those of the process, and returns the exit status."""
    try:
        own = sys.argv[1:] if given is None else list(given)
        if own[:1] == ["--server"]:
            from . import editor

            return editor.serve(own[1:])
        found = words.read(name, own)
        return answered(found)
    except KeyboardInterrupt:
        return INTERRUPTED
    except FAULTS as fault:
        tell(f"{name}: error: {fault}")
    except BrokenPipeError:
        # Nobody reads any more: discard what Python would still write when it ends
        leave_output()
    except OSError as fault:
        tell(f"{name}: error: {fault.strerror or fault}")
        leave_output()
    except MemoryError:
        tell(f"{name}: error: out of memory")
    except Exception as fault:
        # An uncaught exception would end Python with the status of a file with errors
        tell(f"{name}: error: {type(fault).__name__}: {fault}")
    return FAILED


def answered(asked: words.Words) -> int:
    """Does what the words ask for. Returns the exit status."""
    width = shutil.get_terminal_size((100, 24)).columns
    if asked.explain:
        write(explaining.lines(asked.explain, asked.output, min(width, 100)))
        return 0
    used = program.Program(program.chosen(asked.program))
    if asked.version:
        write([f"{used.version() or 'pycheck of unknown version'} at {used.path}"])
        return 0
    if asked.guards:
        return guarded(asked, used, width)
    if asked.fix:
        return fixed(asked, used, width)
    if asked.watch:
        from . import watch

        return watch.Watch(asked, used, width).run()
    return once(asked, used, width)


def once(given: words.Words, used: program.Program, width: int) -> int:
    """Checks the files once, and shows the findings. Returns the exit status."""
    asked, ours = settings.applied(given)
    project = checked(asked, used, ours)
    if asked.output in ("json", "sarif"):
        project.version = used.version()
    show(asked, project, width)
    return project.status


def guarded(asked: words.Words, used: program.Program, width: int) -> int:
    """Writes guards of a core, or shows what the promise excludes. Returns the exit status."""
    made = guards.make(guards.Asked(asked.guards, asked.guards_to, asked.guards_anyway), used, asked.timeout)
    project = Project([made.checked], strict=True)
    if made.checked.findings or made.checked.failure:
        show(asked, project, width)
    if made.withheld:
        tell(made.withheld)
        return project.status
    write([made.written])
    return 0


def fixed(asked: words.Words, used: program.Program, width: int) -> int:
    """Fixes the files, and shows what is left to do by hand. Returns the exit status."""
    from . import fix_command

    links = Links(asked.files)
    named = Files(asked.exclude, asked.stdin_name)
    shown = asked._replace(all_refusals=True)
    try:
        found = named.find(asked.files)
        if not found.sources:
            raise Failure(f"no module to fix in {', '.join(asked.files)}")
        project = Project([], asked.strict)
        project.left[scope.EXCLUDED] = found.excluded
        for source in found.sources:
            outcome = fix_command.fix_file(fix_command.fixer(used, asked.timeout, source), source, links, asked.write)
            write(outcome.lines)
            project.files.append(outcome.checked)
    finally:
        named.close()
    show(shown, project, width)
    return project.status


def looked_for(asked: words.Words, ours: Optional[settings.Settings], named: Files) -> scope.Chosen:
    """Returns the files to check. Fails if no file of a project is to be checked."""
    limits = scope.of(asked, ours)
    paths = limits.words(asked.files)
    found = named.find(paths)
    chosen = limits.chosen(found, paths)
    core = [it for it in paths if it not in (asked.files or [os.curdir])]
    if not found.sources or (core and not chosen.sources):
        raise Failure(f"no module to check in {', '.join(core or paths)}")
    chosen.left[scope.EXCLUDED] += found.excluded
    return chosen


def files_of(asked: words.Words, ours: Optional[settings.Settings]) -> Files:
    """Returns the object that finds the files."""
    if asked.exclude or ours is None:
        return Files(asked.exclude, asked.stdin_name)
    return Files(ours.exclude, asked.stdin_name, ours.folder)


def checked(asked: words.Words, used: program.Program, ours: Optional[settings.Settings]) -> Project:
    """Checks the files, and marks the findings that are known or hidden."""
    known = baseline.read(asked.baseline) if asked.baseline else None
    links = Links(asked.files or [os.curdir])
    for path in filter(None, (asked.page, asked.write_baseline)):
        refuse_links(path, links)
    named = files_of(asked, ours)
    try:
        found = looked_for(asked, ours, named)
        files = running.Run(used, asked.timeout, asked.all_refusals, bool(asked.page)).all(found.sources)
    finally:
        named.close()
    project = Project(files, asked.strict, left=found.left)
    if named.base:
        project.excluding = "exclude"
    if asked.write_baseline:
        written(asked.write_baseline, links, baseline.text_of(asked.write_baseline, files))
        if not known:
            known = baseline.read(asked.write_baseline)
    if known:
        project.gone = known.mark(files)
    hiding.hide(files, hiding.hidden_codes(asked.select, asked.ignore))
    return project


def refuse_links(path: str, links: Links) -> None:
    """Raises Failure if a file to be written is behind a link that is not followed."""
    try:
        links.refuse(path)
    except OSError as fault:
        raise Failure(f"{path}: {fault.strerror or fault}") from None


def written(path: str, links: Links, text: str) -> None:
    """Writes a file; raises Failure."""
    try:
        links.write(path, text)
    except OSError as fault:
        raise Failure(f"{path}: {fault.strerror or fault}") from None


def show(asked: words.Words, project: Project, width: int) -> None:
    """Shows the findings, in the form that is asked for."""
    if asked.page:
        from . import page

        written(asked.page, Links(asked.files or [os.curdir]), page.document(project))
    form = asked.output or ("full" if is_terminal() else "concise")
    rest = closing(asked, project)
    if form in DOCUMENTS:
        write(document(form, project).split("\n"))
        for line in rest if form != "json" else []:
            tell(line)
    else:
        write([*lines(form, asked, project, width), *rest], form == "full" and is_coloured(asked))


def closing(asked: words.Words, project: Project) -> List[str]:
    """Returns the last lines: how often each code occurs, if that is asked for, and the counts."""
    from . import statistics

    return [*(statistics.lines(project) if asked.statistics else []), summary(project)]


def lines(form: str, asked: words.Words, project: Project, width: int) -> Iterator[str]:
    """Returns the lines of a form for people."""
    if form == "full":
        from . import colours, full

        yield from full.Full(colours.Colours(is_coloured(asked)), width).lines(project)
    elif form == "github":
        from . import github

        yield from github.lines(project)
    else:
        from . import concise

        yield from concise.lines(project, asked.all_refusals)


def document(form: str, project: Project) -> str:
    """Returns the document of a form for systems."""
    from . import gitlab, json_form, junit, sarif

    makers = {"json": json_form.document, "gitlab": gitlab.document, "sarif": sarif.document, "junit": junit.document}
    return makers[form](project)


def is_coloured(asked: words.Words) -> bool:
    """Whether the form `full` has colours."""
    from . import colours

    return sys.stdout is not None and colours.wanted(asked.color, sys.stdout)


def is_terminal() -> bool:
    """Whether standard output is a terminal."""
    return sys.stdout is not None and sys.stdout.isatty()


def write(lines: Sequence[str], coloured: bool = False) -> None:
    """Writes lines to standard output, in UTF-8, each as `texts.line` makes it."""
    if sys.stdout is None:
        raise Failure("standard output is closed")
    sys.stdout.flush()
    with open(sys.stdout.fileno(), "wb", closefd=False) as output:
        for line in lines:
            output.write(f"{texts.line(line, coloured)}\n".encode())


def tell(text: str) -> None:
    """Writes a line to standard error, if that is open, as `texts.line` makes it."""
    try:
        if sys.stderr is not None:
            print(texts.line(text), file=sys.stderr, flush=True)
    except OSError:
        pass


def leave_output() -> None:
    """Discards everything that is written to standard output from now on."""
    try:
        os.dup2(os.open(os.devnull, os.O_WRONLY), sys.stdout.fileno())
    except (OSError, ValueError, AttributeError):
        pass
