from __future__ import annotations
def main():
    xs: list[int] = []
    print(xs[0])
main()
