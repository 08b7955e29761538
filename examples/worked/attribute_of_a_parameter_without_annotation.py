from __future__ import annotations
def f(x):
    return x.a
def main():
    f(None)
main()
