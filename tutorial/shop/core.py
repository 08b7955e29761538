# The core of a shop: the stock, and orders that take items out of it.
from __future__ import annotations
from dataclasses import dataclass

@dataclass
class Item:
    price: int
    count: int

@dataclass
class Shop:
    items: dict[str, Item]

@dataclass
class Refused:
    name: str
    reason: str

# Takes an order out of the stock, and gives its cost. If one line cannot be served, nothing is taken.
def sell(shop: Shop, order: dict[str, int]) -> int | Refused:
    cost = 0
    for name in order:
        price = price_of(shop, name, order[name])
        if isinstance(price, Refused):
            return price
        cost = cost + price
    for name in order:
        item = shop.items[name]
        item.count = item.count - order[name]
    return cost

# The cost of so many of an item, or why they cannot be sold.
def price_of(shop: Shop, name: str, count: int) -> int | Refused:
    item = shop.items.get(name)
    if item is None:
        return Refused(name, "unknown")
    if count < 1 or count > item.count:
        return Refused(name, "not so many")
    return item.price * count

def main() -> None:
    pass

main()
