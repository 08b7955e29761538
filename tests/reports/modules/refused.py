from __future__ import annotations

def main():
    total = 0
    total += 1
    print(f"{total}")

main()
