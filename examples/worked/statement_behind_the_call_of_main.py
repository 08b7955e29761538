from __future__ import annotations
def main():
    pass
main()
x = 1
