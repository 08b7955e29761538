from __future__ import annotations
def f(x: int | None) -> int:
    while x is None:
        x = 1
    return x + 1
def main():
    f(None)
main()
