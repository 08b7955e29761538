from __future__ import annotations
def f(x: object, y: int):
    y = x
def main():
    pass
main()
