from __future__ import annotations
from dataclasses import dataclass

@dataclass
class Pair:
    left: int = -1
    right: int = 2

    def sum(self, more: int = 0) -> int:
        return (self.left) + self.right + more

def main():
    pair = Pair(right=3)
    pair.left = len([1, 2])
    table = {"é": pair.sum(more=1), "b": 4}
    for n in range(2):
        table["b"] = n
    found = (pair is None) or isinstance(n, int) and (not False) and (n) == 1 or True
    while not (found is not None):
        pass
    assert found, "none"
    print(-n, table["c"])

main()
