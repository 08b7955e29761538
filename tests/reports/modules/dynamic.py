from __future__ import annotations

def increase(n: int) -> int:
    return n + 1

def step(value) -> int:
    return increase(value)

def add(a, b):
    return a + b

def main():
    print(step(3), add(1, 2))

main()
