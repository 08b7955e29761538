from __future__ import annotations
def main():
    def g():
        pass
main()
