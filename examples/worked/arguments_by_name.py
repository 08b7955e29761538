from __future__ import annotations
def f(a: int, b: int = 2) -> int:
    return a - b
def main():
    f(b=1, a="x")
main()
