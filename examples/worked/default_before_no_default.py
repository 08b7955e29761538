from __future__ import annotations
def f(a: int = 1, b: int):
    pass
def main():
    pass
main()
