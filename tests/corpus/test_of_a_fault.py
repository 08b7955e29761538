from __future__ import annotations

def main():
    isinstance(1, 1 // 0)

main()
