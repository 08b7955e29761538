from __future__ import annotations

def main():
    print(1 + "a")

main()
