from __future__ import annotations
def main():
    xs: list[int | str] = [1]
main()
