from __future__ import annotations
def main():
    d = {1: "a"}
    s: str = d.get(2)
main()
