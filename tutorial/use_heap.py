import heap_5 as heap

numbers = [5, 3, 8, 1]
heap.heapify(numbers)
heap.push(numbers, 2)
first, second = heap.pop(numbers), heap.pop(numbers)
if first is None or second is None:
    print("there are less than two")
else:
    print(f"the two smallest come to {first + second}")
