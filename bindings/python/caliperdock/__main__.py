"""Prints the tree of a file, or of the standard input: python -m caliperdock [FILE]."""
import sys

import caliperdock


def main() -> int:
    if len(sys.argv) > 2 or sys.argv[1:] in (["-h"], ["--help"]):
        print(__doc__, file=sys.stderr)
        return 2
    if len(sys.argv) == 2:
        with open(sys.argv[1], encoding="utf-8", newline="") as file:
            sql = file.read()
    else:
        sql = sys.stdin.buffer.read().decode()
    tree = caliperdock.parse(sql)
    print(tree)
    for error in tree.errors:
        print(f"{error.start}..{error.end}: {error.message}", file=sys.stderr)
    return 1 if tree.errors else 0


if __name__ == "__main__":
    sys.exit(main())
