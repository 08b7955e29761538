from __future__ import annotations
def main():
    café = 1
    print(café)
main()
