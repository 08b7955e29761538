from __future__ import annotations
from dataclasses import dataclass
from typing import Any

limit: int = 1_000
words = ["a\n", 'é', (), (1,)]

@dataclass
class Shape:
    name: str
    next: Shape | None = None

@dataclass
class Square(Shape):
    side: int = -1

    def area(self, ﬁrst=True, by: dict[str, tuple[()]] | None = None,) -> int:
        self.side = (self.side) * 2 // -limit % 3
        return self.side

@ dataclass
class Point:
    pass

def show(value: Any, end="\\"):
    print(value)

def main():
    for word in words:
        if word in "a" and not word == "b" and (word) is not None:
            continue
        elif (1) - 2 < 3 or word is None or False:
            break
        else:
            ages: dict[str, int] = {"a": 1, "b": 2,}
            ages["a"] = -ages.get("c")
    while 1 not in [1, (2)]:
        assert (True), ("no")
        pass
    x: int
    (show)(Square("s", side=4).area(ﬁrst=False), end="!",)

main()
