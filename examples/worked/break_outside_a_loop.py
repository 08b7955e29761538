from __future__ import annotations
def main():
    break
main()
