from __future__ import annotations

def down(n: int) -> int:
    if n == 0:
        return 0
    return down(n - 1)

def main():
    print(down(64))

main()
