from __future__ import annotations
def f(a: list[int], b: list[str], c: list[object]):
    x = [a, b]
    x = c
def main():
    pass
main()
