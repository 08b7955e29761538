from __future__ import annotations
from dataclasses import dataclass
@dataclass
class A:
    a: int = 0
@dataclass
class B(A):
    b: int
def main():
    pass
main()
