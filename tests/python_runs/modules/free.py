from __future__ import annotations

def main():
    assert [1] == [1]

main()
