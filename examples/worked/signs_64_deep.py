from __future__ import annotations
def main():
    return ----------------------------------------------------------------1
main()
