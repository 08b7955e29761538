from __future__ import annotations
def f(x: tuple[bool, str], y: tuple[int, str]):
    y = x
def main():
    pass
main()
