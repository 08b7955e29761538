from __future__ import annotations

def main():
    Any()

main()
