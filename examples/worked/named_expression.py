from __future__ import annotations
def main():
    x := 1
main()
