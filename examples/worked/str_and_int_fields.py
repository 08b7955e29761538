from __future__ import annotations
from dataclasses import dataclass
@dataclass
class A:
    a: int
@dataclass
class B(A):
    b: str = "q"
def main():
    x = B(1)
    print(x.b + x.a)
main()
