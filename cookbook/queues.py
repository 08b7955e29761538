# Two queues of numbers: one in a list, one of linked nodes. `put` adds at the end, `take` removes from the beginning.
# They differ from collections.deque: `take` gives None where `popleft` raises IndexError, and nothing is added at the
# beginning or removed from the end.
from __future__ import annotations
from dataclasses import dataclass

# A queue in a list. Queue([]) is an empty one; Queue(values) takes the list as its own.
@dataclass
class Queue:
    values: list[int]
    taken: int = 0

    def size(self) -> int:
        return len(self.values) - self.taken

    def put(self, value: int) -> None:
        self.values.append(value)

    # Takes the first value, or gives None if the queue is empty. On average, each take copies less than one value.
    def take(self) -> int | None:
        if self.size() == 0:
            return None
        value = self.values[self.taken]
        self.taken = self.taken + 1
        if self.taken > self.size():
            self.forget_taken()
        return value

    # Removes the taken values from the list.
    def forget_taken(self) -> None:
        left: list[int] = []
        for at in range(self.size()):
            left.append(self.values[self.taken + at])
        self.values = left
        self.taken = 0

@dataclass
class Node:
    value: int
    next: Node | None = None

# A queue of linked nodes. Chain() is an empty one. A test does not narrow an attribute, so each method assigns it
# to a local first, and tests that.
@dataclass
class Chain:
    first: Node | None = None
    last: Node | None = None
    count: int = 0

    def size(self) -> int:
        return self.count

    def put(self, value: int) -> None:
        node = Node(value)
        last = self.last
        if last is None:
            self.first = node
        else:
            last.next = node
        self.last = node
        self.count = self.count + 1

    # Takes the first value, or gives None if the chain is empty.
    def take(self) -> int | None:
        first = self.first
        if first is None:
            return None
        self.first = first.next
        if first.next is None:
            self.last = None
        self.count = self.count - 1
        return first.value

    # Removes each node with this value. Differs from `remove` of a deque, which removes the first such value and
    # raises ValueError if there is none.
    def remove_all(self, value: int) -> None:
        before: Node | None = None
        node = self.first
        while node is not None:
            if node.value != value:
                before = node
            else:
                self.unlink(before, node)
            node = node.next

    # Removes a node, given the one before it.
    def unlink(self, before: Node | None, node: Node) -> None:
        if before is None:
            self.first = node.next
        else:
            before.next = node.next
        if node.next is None:
            self.last = before
        self.count = self.count - 1

    # Reverses the order, as `reverse` of a deque does.
    def reverse(self) -> None:
        before: Node | None = None
        node = self.first
        self.last = node
        while node is not None:
            after = node.next
            node.next = before
            before = node
            node = after
        self.first = before

    def values(self) -> list[int]:
        result: list[int] = []
        node = self.first
        while node is not None:
            result.append(node.value)
            node = node.next
        return result

def main() -> None:
    pass

main()
