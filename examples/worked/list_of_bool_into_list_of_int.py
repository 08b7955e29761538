from __future__ import annotations
def f(x: list[bool], y: list[int]):
    y = x
def main():
    pass
main()
