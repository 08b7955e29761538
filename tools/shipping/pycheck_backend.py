"""The build backend by which pip installs this repository, as the standard has it (PEP 517).

It calls tools/wheel to write the wheel, and needs nothing else: no package is downloaded."""
from __future__ import annotations

import importlib.machinery
import importlib.util
import sys
from pathlib import Path
from types import ModuleType
from typing import Any, List, NoReturn, Optional

sys.dont_write_bytecode = True
WHEEL = Path(__file__).resolve().parent.parent / "wheel"


class UnsupportedOperation(Exception):
    """A request is not supported; the standard gives the name."""


def tool() -> ModuleType:
    """Returns the program tools/wheel as a module."""
    loader = importlib.machinery.SourceFileLoader("pycheck_wheel", str(WHEEL))
    found = importlib.util.spec_from_loader(loader.name, loader)
    assert found is not None
    module = importlib.util.module_from_spec(found)
    sys.modules[loader.name] = module
    loader.exec_module(module)
    return module


def get_requires_for_build_wheel(config_settings: Optional[Any] = None) -> List[str]:
    """Returns the packages that a build needs: none."""
    return []


def build_wheel(
    wheel_directory: str, config_settings: Optional[Any] = None, metadata_directory: Optional[str] = None
) -> str:
    """Writes the wheel into a folder, and returns its name. If the repository gives none, the build ends with the
    reason."""
    wheel = tool()
    try:
        path: Path = wheel.write_wheel(Path(wheel_directory))
    except (wheel.Fault, OSError) as fault:
        raise SystemExit(f"tools/wheel: {fault}") from None
    return path.name


def build_sdist(sdist_directory: str, config_settings: Optional[Any] = None) -> NoReturn:
    """Raises UnsupportedOperation: no archive of the sources is written."""
    raise UnsupportedOperation("there is no archive of the sources: take a clone of the repository")
