from __future__ import annotations
def main():
    print(x)
    x = 1
main()
