from __future__ import annotations

def age_of(ages: dict[str, int], name: str) -> int:
    return ages.get(name)

def main():
    print(age_of({"Ada": 36}, "Ada") + "!")

main()
