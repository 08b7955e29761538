from __future__ import annotations
def main():
    return
    pass
main()
