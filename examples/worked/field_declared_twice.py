from __future__ import annotations
from dataclasses import dataclass
@dataclass
class A:
    a: int
@dataclass
class B(A):
    a: str
def main():
    pass
main()
