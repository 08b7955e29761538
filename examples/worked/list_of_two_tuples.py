from __future__ import annotations
def f(a: tuple[int], b: tuple[str], c: list[tuple[int | str]]):
    x = [a, b]
    x = c
def main():
    pass
main()
