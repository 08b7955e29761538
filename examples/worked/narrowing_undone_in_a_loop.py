from __future__ import annotations
def f(x: int | None):
    if x is None:
        return
    while True:
        x + 1
        x = None
def main():
    f(1)
main()
