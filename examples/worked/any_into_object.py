from __future__ import annotations
from typing import Any
def f(x: Any, y: object):
    y = x
def main():
    pass
main()
