from __future__ import annotations
def main():
    return 7 - 2 - 1
main()
