from __future__ import annotations
def main():
    if True:
        x = 1
    return x
main()
