from __future__ import annotations
def f(a: int, b: None, c: list[int | None]):
    x = [a, b]
    x = c
def main():
    pass
main()
