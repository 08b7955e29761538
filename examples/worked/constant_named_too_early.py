from __future__ import annotations
a: int = b
b: int = 1
def main():
    print(a)
main()
