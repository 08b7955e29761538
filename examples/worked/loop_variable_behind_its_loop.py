from __future__ import annotations
def main():
    xs: list[int] = []
    for x in xs:
        pass
    print(x)
main()
