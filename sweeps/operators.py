#!/usr/bin/python3
"""operators.py SQL_TREE FOLDER..: what binds to what, against PostgreSQL's parser, as python3-pglast has it.

SQL_TREE is `crates/sql_tree/out/sql_tree`; the system's Python runs this. Of each statement that both take: each
expression, join and set operation has one text with all its parentheses, by `forms.py`, from both trees. Prints a line
WRONG for each statement with a text that stands on one side alone, and counts by the operators in them."""
import re
import sys
from collections import Counter

from our_forms import our_forms
from their_forms import their_forms
from trees import pairs

SHOWN = 300
WORD = re.compile(r"\((@|[a-z]{2,})")


def counted(forms):
    """How many of each operator are in these."""
    return Counter(word for form in forms for word in WORD.findall(form))


def left(forms, others):
    return list((Counter(forms) - Counter(others)).elements())


def main(program, paths):
    counts, tally, wrong = Counter(), Counter(), 0
    for statement, tree, ours in pairs(program, paths, counts):
        text = statement.encode()
        theirs, found = their_forms(tree, text), our_forms(ours, text)
        counts["compared"] += 1
        counts["texts"] += len(theirs)
        tally += counted(theirs)
        if Counter(theirs) != Counter(found):
            wrong += 1
            if wrong <= SHOWN:
                print(f"WRONG {left(found, theirs)}, and not {left(theirs, found)}: {statement[:300]!r}")
    for word, count in tally.most_common():
        print(f"{count} {'operators' if word == '@' else word}")
    print(f"operators: {', '.join(f'{count} {what}' for what, count in counts.items())}, {wrong} wrong")
    return 1 if wrong else 0


if __name__ == "__main__":
    sys.exit(main(sys.argv[1], sys.argv[2:]))
