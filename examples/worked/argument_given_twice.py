from __future__ import annotations
def f(a: int, b: int = 2) -> int:
    return a - b
def main():
    f(1, a=2)
main()
