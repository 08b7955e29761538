from __future__ import annotations

def main():
    print("hello")

main()
