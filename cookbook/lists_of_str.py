# Functions for lists of `str`, made from those of lists_of_int.py. Copy those that you need into your module, with
# those that they call. Each comment says how a function differs from Python's own.
from __future__ import annotations

# max(values): the largest value, and the first of several that are equal.
# Differs for an empty list, where Python raises ValueError: the answer is None.
def max_of_str(values: list[str]) -> str | None:
    if len(values) == 0:
        return None
    largest = values[0]
    for value in values:
        if value > largest:
            largest = value
    return largest

# min(values): the smallest value, and the first of several that are equal.
# Differs for an empty list, where Python raises ValueError: the answer is None.
def min_of_str(values: list[str]) -> str | None:
    if len(values) == 0:
        return None
    smallest = values[0]
    for value in values:
        if value < smallest:
            smallest = value
    return smallest

# sorted(values): a new list with the values in order; equal values keep their order.
# Does not differ. There is no `key` and no `reverse`.
def sorted_of_str(values: list[str]) -> list[str]:
    result = slice_of_list_str(values)
    width = 1
    while width < len(result):
        result = merged_str(result, width)
        width = width * 2
    return result

# A step of sorted_of_str: of a list whose runs of this width are sorted, one whose runs of twice the width are.
def merged_str(values: list[str], width: int) -> list[str]:
    result: list[str] = []
    start = 0
    while start < len(values):
        merge_str(values, start, start + width, result)
        start = start + 2 * width
    return result

# A step of merged_str: appends two runs to the result, those before and after `middle`, as one.
def merge_str(values: list[str], start: int, middle: int, result: list[str]) -> None:
    end = middle + middle - start
    if end > len(values):
        end = len(values)
    left = start
    right = middle
    while left < middle and left < end or right < end:
        if left == middle or right < end and values[right] < values[left]:
            result.append(values[right])
            right = right + 1
        else:
            result.append(values[left])
            left = left + 1

# values.insert(at, value): puts the value before the place `at`.
# Does not differ: a negative place counts from the end, and one beyond an end is that end.
def insert_str(values: list[str], at: int, value: str) -> None:
    place = at
    if place < 0:
        place = place + len(values)
    if place < 0:
        place = 0
    values.append(value)
    free = len(values) - 1
    while free > place:
        values[free] = values[free - 1]
        free = free - 1
    values[free] = value

# list(reversed(values)): a new list with the values from the last to the first.
# Does not differ.
def reversed_of_str(values: list[str]) -> list[str]:
    result: list[str] = []
    for count in range(len(values)):
        result.append(values[len(values) - 1 - count])
    return result

# values[start:stop]: a new list of the values from `start` up to, but not including, `stop`.
# Does not differ; negative places count from the end. For values[:stop], `start` is 0. There is no step.
def slice_of_list_str(values: list[str], start: int = 0, stop: int | None = None) -> list[str]:
    at = start
    if at < 0:
        at = at + len(values)
    if at < 0:
        at = 0
    end = len(values)
    if stop is not None and stop < end:
        end = stop
    if end < 0:
        end = end + len(values)
    result: list[str] = []
    while at < end:
        result.append(values[at])
        at = at + 1
    return result

def main() -> None:
    pass

main()
