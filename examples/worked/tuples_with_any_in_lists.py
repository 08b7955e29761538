from __future__ import annotations
from typing import Any
def f(x: list[tuple[Any, int]], y: list[tuple[str, Any]]):
    y = x
def main():
    pass
main()
