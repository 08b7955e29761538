from __future__ import annotations
def f(x: int | None):
    while True:
        if x is not None:
            break
    return x + 1
def main():
    f(1)
main()
