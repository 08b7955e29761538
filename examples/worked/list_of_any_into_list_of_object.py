from __future__ import annotations
from typing import Any
def f(x: list[Any], y: list[object]):
    y = x
def main():
    pass
main()
