from __future__ import annotations
def f(a: bool, b: int, c: list[int]):
    x = [a, b]
    x = c
def main():
    pass
main()
