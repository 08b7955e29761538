from __future__ import annotations
def main():
    ﬁ = 1
    print(fi)
main()
