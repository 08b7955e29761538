from __future__ import annotations

def main():
    print(abs(1))

main()
