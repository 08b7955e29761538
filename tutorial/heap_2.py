from __future__ import annotations

# A heap: a list whose smallest item is first.

# Puts an item in.
def push(heap: list[int], item: int):
    heap.append(item)
    rise(heap, len(heap) - 1)

# Takes the smallest item out.
def pop(heap: list[int]):
    if not heap:
        assert False, "pop from an empty heap"
    last = heap.pop()
    if not heap:
        return last
    return replace(heap, last)

# Takes the smallest item out and puts another in.
def replace(heap: list[int], item: int):
    smallest = heap[0]
    heap[0] = item
    sink(heap, 0)
    return smallest

# Puts an item in and takes the smallest out, which may be the same.
def push_and_pop(heap: list[int], item: int):
    if heap and heap[0] < item:
        return replace(heap, item)
    return item

# Makes a heap of any list.
def heapify(heap: list[int]):
    for at in range(len(heap) // 2 - 1, -1, -1):
        sink(heap, at)

# Moves the item at a place up to where it belongs.
def rise(heap: list[int], at: int):
    item = heap[at]
    while at > 0:
        above = (at - 1) // 2
        if not item < heap[above]:
            break
        heap[at] = heap[above]
        at = above
    heap[at] = item

# Moves the item at a place down to where it belongs.
def sink(heap: list[int], at: int):
    item = heap[at]
    below = 2 * at + 1
    while below < len(heap):
        if below + 1 < len(heap) and heap[below + 1] < heap[below]:
            below = below + 1
        if not heap[below] < item:
            break
        heap[at] = heap[below]
        at = below
        below = 2 * below + 1
    heap[at] = item

def main():
    numbers = [5, 3, 8, 1]
    heapify(numbers)
    push(numbers, 2)
    print("the two smallest come to " + str(pop(numbers) + pop(numbers)))

main()
