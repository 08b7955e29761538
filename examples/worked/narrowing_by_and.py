from __future__ import annotations
def f(x: int | None) -> int:
    if x is not None and x > 0:
        return x
    return 0
def main():
    f(1)
main()
