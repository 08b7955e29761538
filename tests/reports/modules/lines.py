from __future__ import annotations

def main():
    print(1 +
          2 *
          3 + "a")
    print("a" +
          "b" +
          "c" +
          "d" +
          "e" +
          "f" +
          "g" +
          1)

main()
