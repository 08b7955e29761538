from __future__ import annotations
def f(x: int | None) -> int:
    assert x is not None, "no"
    return x + 1
def main():
    f(None)
main()
