from __future__ import annotations
from dataclasses import dataclass
from typing import Any
@dataclass
class A:
    def m(self, x: Any) -> int:
        return 0
@dataclass
class B(A):
    def m(self, x: int) -> int:
        return x
@dataclass
class C(B):
    def m(self, x: int) -> int:
        return x + 1
def f(a: A) -> int:
    return a.m("s")
def main():
    f(C())
main()
