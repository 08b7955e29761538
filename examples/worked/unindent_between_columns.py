from __future__ import annotations
def main():
    if True:
        pass
  pass
main()
