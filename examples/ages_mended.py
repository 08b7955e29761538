from __future__ import annotations

def age_of(ages: dict[str, int], name: str) -> int:
    age = ages.get(name)
    if age is None:
        return 0
    return age

def next_year(age: int) -> int:
    return age + 1

def main():
    ages = {"Ada": 36, "Bob": 41}
    print(next_year(age_of(ages, "Ada")))

main()
