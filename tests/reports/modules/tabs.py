from __future__ import annotations

def main():
    total	=	1	+	"a"

main()
