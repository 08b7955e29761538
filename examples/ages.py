from __future__ import annotations

def age_of(ages: dict[str, int], name: str) -> int:
    return ages.get(name)

def next_year(age):
    return age + 1

def main():
    ages = {"Ada": 36, "Bob": 41}
    print(next_year(age_of(ages, "Ada")))

main()
