from __future__ import annotations
from typing import Any
def f(x: Any, y: list[int] | None):
    if isinstance(x, list):
        x.append("a")
    if isinstance(y, list):
        y.append(1)
def main():
    f([1], None)
main()
