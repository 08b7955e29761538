from __future__ import annotations
def main():
    if [] == []:
        return 1 + "a"
main()
