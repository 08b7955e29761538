from __future__ import annotations
from dataclasses import dataclass
@dataclass
class A:
    def m(self, x: int):
        pass
@dataclass
class B(A):
    def m(self, y: int):
        pass
def main():
    pass
main()
