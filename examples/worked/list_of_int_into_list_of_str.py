from __future__ import annotations
def f(x: list[int], y: list[str]):
    y = x
def main():
    pass
main()
