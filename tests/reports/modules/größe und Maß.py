from __future__ import annotations

def answer() -> int:
    return 42

def main():
    print(answer)

main()
