from __future__ import annotations
def main():
    yield
main()
