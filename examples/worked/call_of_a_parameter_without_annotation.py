from __future__ import annotations
def f(x):
    return x(1)
def main():
    f(1)
main()
