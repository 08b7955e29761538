from __future__ import annotations
def f(x: int | None) -> int:
    if x is None:
        return 0
    return x + 1
def main():
    f(None)
main()
