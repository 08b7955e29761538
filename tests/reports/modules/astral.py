from __future__ import annotations

def main():
    print("𐀀é漢", 1 + "a")

main()
