from __future__ import annotations
from dataclasses import dataclass
@dataclass
class P:
    a: int
def main():
    x = P(1)
    x.new = 1
main()
