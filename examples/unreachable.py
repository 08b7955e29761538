from __future__ import annotations
def main():
    return
    "a" - 1
main()
