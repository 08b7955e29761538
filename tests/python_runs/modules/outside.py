from __future__ import annotations

def main():
    print([1] + [2])

main()
