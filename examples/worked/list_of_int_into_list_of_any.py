from __future__ import annotations
from typing import Any
def f(x: list[int], y: list[Any]):
    y = x
def main():
    pass
main()
