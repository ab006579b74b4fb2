#!/usr/bin/env python3
"""sizes.py PROGRAM [SHAPE[=N] ..]: large documents of shapes that are unkind, each of N elements and of a tenth of them.

Prints for both the size of the document, the processor time (the least of three runs; of one, where a run takes more than 20 seconds) and the
most memory, and how many times as much the larger one takes: ten where it grows with the size. The lines of each answer are counted, and must
be those that the shape says. With no SHAPE all are run, at sizes that want up to 1.2 gigabytes. A run is ended after 300 seconds.
Memory below 20 MB isn't told apart: the system counts what this process had."""
import os
import subprocess
import sys
import tempfile
import time
from collections import Counter
from typing import NamedTuple

MEMBERS = '{"text":"%s","tokens":[%s],"words":{"operator_first":[%s],"names":[%s]},' \
    '"vocabulary":{"keywords":[%s],"contextual":[]},"entry":"%s","calls":[%s]}'
SIGNS = "15,16,17,18,20,21,22,23,24,25,26,27,28,29,30,31,32"
START, BUMP = '["start"]', '["bump_any"]'
WORD, SPACE = '["ident",1]', '["whitespace",1]'


class Shape(NamedTuple):
    """A document's members, each as the items of its list, and how many lines of each kind the answer has, or its status."""
    text: str
    tokens: list
    calls: list
    lines: dict
    signs: str = ""
    names: list = []
    keywords: list = []
    entry: str = "sql"
    status: int = 0

    def write(self, path):
        members = [self.text, self.tokens, self.signs, self.names, self.keywords, self.entry, self.calls]
        with open(path, "w") as file:
            file.write(MEMBERS % tuple(",".join(m) if isinstance(m, list) else m for m in members))


def complete(marker, kind=700):
    return f'["complete",{marker},{kind}]'


def in_node(calls):
    return [START, *calls, complete(0)]


def words(n):
    """n raw tokens in one node, every other one white space."""
    n = n // 2
    return Shape("a " * n, [WORD, SPACE] * n, in_node([BUMP] * n), {"enter": 1, "token": 2 * n, "exit": 1, "all": 1})


def nodes(n):
    """The same, each word in a node of its own."""
    n = n // 2
    calls = [call for word in range(n) for call in (START, BUMP, complete(word + 1))]
    lines = {"enter": n + 1, "token": 2 * n, "exit": n + 1, "all": 1}
    return Shape("a " * n, [WORD, SPACE] * n, in_node(calls), lines)


def precedes(n):
    """A chain of n nodes, each in front of the one before."""
    calls = [START, BUMP, complete(0)]
    calls += [call for node in range(n) for call in (f'["precede",{node}]', complete(node + 1))]
    return Shape("a", [WORD], calls, {"enter": n + 1, "token": 1, "exit": n + 1, "all": 1})


def errors(n):
    """n errors directly behind one closing."""
    calls = [START, BUMP, complete(1)] + ['["error","unexpected token"]'] * n
    return Shape("a", [WORD], in_node(calls), {"enter": 2, "token": 1, "error": n, "exit": 2, "all": 1})


def nesting(n):
    """n nodes, each in the one before."""
    calls = [START] * n + [BUMP] + [complete(marker) for marker in reversed(range(n))]
    return Shape("a", [WORD], calls, {"enter": n, "token": 1, "exit": n, "all": 1})


def abandoned(n):
    """n markers in a row, abandoned the oldest first."""
    calls = [START] * n + [f'["abandon",{marker + 1}]' for marker in range(n)] + [BUMP]
    return Shape("a", [WORD], in_node(calls), {"enter": 1, "token": 1, "exit": 1, "all": 1})


def extended(n, newest_first=False):
    """A node extended to n older markers, the oldest first."""
    markers = range(1, n + 1)
    extends = [f'["extend_to",{n + 1},{marker}]' for marker in (reversed(markers) if newest_first else markers)]
    calls = [START] * n + [START, BUMP, complete(n + 1)] + extends
    return Shape("a", [WORD], in_node(calls), {"enter": 2, "token": 1, "exit": 2, "all": 1})


def extended_newest(n):
    """The same, the newest first."""
    return extended(n, newest_first=True)


def crossing(n):
    """n markers completed in the order in which they were started."""
    calls = [START] * n + [BUMP] + [complete(marker) for marker in range(n)]
    return Shape("a", [WORD], calls, {"enter": n, "token": 1, "exit": n, "all": 1})


def strings(n):
    """A bit string continued over n lines, with an error in each."""
    tokens = ['["bit_str",4,true]'] + [SPACE, '["str",4,true]'] * n
    lines = {"lex": n, "enter": 1, "token": 2 * n + 1, "exit": 1, "all": 1}
    return Shape("B'1'" + "\\n'12'" * n, tokens, in_node([BUMP] * (n + 1)), lines)


def comments(n):
    """A string behind n comments, and so n times: each looks for what it continues."""
    n = int(n ** 0.5)
    tokens = ['["str",2,true]'] + ['["block_comment",4,true]'] * n
    lines = {"enter": 1, "token": n * (n + 1), "exit": 1, "all": 1}
    return Shape(("''" + "/**/" * n) * n, tokens * n, in_node([BUMP] * n), lines)


def escapes(n):
    """n escapes in one string, each too short."""
    lines = {"lex": n, "enter": 1, "token": 1, "exit": 1, "all": 1}
    return Shape("E'" + r"\\u" * n + "'", [f'["esc_str",{2 * n + 3},true]'], in_node([BUMP]), lines)


def controls(n):
    """A text of n bytes, each of which is written as six."""
    lines = {"enter": 1, "token": 1, "exit": 1, "all": 1}
    return Shape(r"\u0001" * n, [f'["unknown",{n}]'], in_node([BUMP]), lines)


def digits(n):
    """A parameter of n digits."""
    lines = {"lex": 1, "enter": 1, "token": 1, "exit": 1, "all": 1}
    return Shape("$" + "9" * n, [f'["positional_param",{n + 1},{n + 1}]'], in_node([BUMP]), lines)


def number(n):
    """A marker of n digits behind a point."""
    return Shape("a", [WORD], [START, BUMP, f'["complete",0.{"1" * n},700]'], {}, status=2)


def great_number(n):
    """A marker of n digits."""
    return Shape("a", [WORD], [START, BUMP, f'["complete",{"1" * n},700]'], {}, status=2)


def members(n):
    """An item of the calls that is an object of n members."""
    items = ",".join(f'"{i}":0' for i in range(n))
    return Shape("a", [WORD], [f"{{{items}}}"], {}, status=2)


def unspent(n):
    """n markers, of which the last is left open."""
    calls = [START] * n + [complete(marker) for marker in range(n - 1)]
    return Shape("", [], calls, {}, status=4)


def operator(n):
    """One operator of n signs."""
    tokens = ['["plus",1]'] * (n - 1) + ['["at",1]']
    lines = {"enter": 2, "token": n, "exit": 2, "all": 1}
    return Shape("+" * (n - 1) + "@", tokens, in_node(['["eat",664]']), lines, SIGNS)


def signs(n):
    """n plus signs that touch, each eaten as an operator of its own, since a name of several ends in no plus."""
    lines = {"enter": n + 1, "token": n, "exit": n + 1, "all": 1}
    return Shape("+" * n, ['["plus",1]'] * n, in_node(['["eat",664]'] * n), lines, SIGNS)


def signs_of_tiny(n):
    """The same, by the small grammar, which misses an operand behind each."""
    lines = {"enter": 1 + n + n + (n + 1), "token": n, "error": n + 1, "exit": 1 + n + n + (n + 1), "all": 1}
    return Shape("+" * n, ['["plus",1]'] * n, [], lines, entry="tiny")


def arrow_looks(n):
    """An arrow in an operator of n / 2 signs, which is looked for n / 2 times and isn't there."""
    n = n // 2
    tokens = ['["eq",1]', '["gt",1]'] + ['["plus",1]'] * n + ['["at",1]']
    return Shape("=>" + "+" * n + "@", tokens, in_node(['["eat",49]'] * n), {"enter": 1, "exit": 1, "rest": 1}, SIGNS)


def arrows(n):
    """n signs, at each of which `=>` is looked for. It stands at the last two alone, since what begins before is longer."""
    n = n // 2
    calls = in_node(['["eat",49]', BUMP] * (2 * n))
    return Shape("=>" * n, ['["eq",1]', '["gt",1]'] * n, calls, {"enter": 1, "token": 2 * n - 1, "exit": 1, "all": 1}, SIGNS)


def operators(n):
    """n operators between operands, by the small grammar: n nodes nested to the left."""
    tokens = [WORD] + ['["plus",1]', WORD] * n
    lines = {"enter": 1 + n + n + (n + 1), "token": 2 * n + 1, "exit": 1 + n + n + (n + 1), "all": 1}
    return Shape("a" + "+a" * n, tokens, [], lines, entry="tiny")


def looked_up(keywords):
    """These keywords, all of one length, and each of them as a word that is looked up."""
    pairs = [f'["{word}",{200 + i % 400}]' for i, word in enumerate(keywords)]
    lines = {"enter": 1, "token": 2 * len(keywords), "exit": 1, "all": 1}
    tokens = [f'["ident",{len(keywords[0])}]', SPACE] * len(keywords)
    return Shape("".join(word + " " for word in keywords), tokens, in_node([BUMP] * len(keywords)), lines, keywords=pairs)


def keywords(n):
    """n keywords, and n words that are looked up."""
    return looked_up([f"k{i:07}" for i in range(n)])


def colliding(n):
    """The same with one hash, by the standard library's hash, whose seed is fixed."""
    beginning = beginning_of_one_hash()
    return looked_up([f"{beginning}{i:08}" for i in range(n)])


def one_place(n):
    """The same of 16 bytes, whose place is one: it is that of the sum of the first eight and the last eight."""
    return looked_up([f"{i:08}{99999999 - i:08}" for i in range(n)])


def long_words(n):
    """The same of 30 bytes, which no slot keeps."""
    return looked_up([f"a_word_of_thirty_bytes{i:08}" for i in range(n)])


def beginning_of_one_hash():
    """24 letters and digits: every word of 32 bytes that begins so has the hash 0, whatever its last eight are.

    The hash multiplies 16 bytes at a time. The third eight of these are what was made of the first two, so that a factor is 0."""
    seed, multiplier, whole = 0x243F6A8885A308D3, 0x9E3779B97F4A7C15, 2 ** 64 - 1
    for n in range(10 ** 8):
        letters = f"{n:016}".encode()
        first, second = (int.from_bytes(letters[at:at + 8], "little") for at in (0, 8))
        product = (first ^ seed + 32) * (second ^ multiplier)
        third = (product & whole ^ product >> 64).to_bytes(8, "little")
        if all(chr(byte).isalnum() and byte < 128 for byte in third):
            return (letters + third).decode()


def expects(n):
    """n / 2 names, and as many kinds that are expected, of which the last name is that of."""
    n = n // 2
    names = ['[1000,"other"]'] * (n - 1) + ['[5,"semicolon"]']
    lines = {"enter": 1, "token": 1, "error": n, "exit": 1, "all": 1}
    return Shape("a", [WORD], in_node([BUMP] + ['["expect",5]'] * n), lines, names=names)


LINEAR = (
    words, nodes, precedes, errors, nesting, abandoned, extended, extended_newest, crossing, strings, comments, escapes, controls, digits,
    number, great_number, members, unspent, operator, signs, signs_of_tiny, arrow_looks, arrows, operators, keywords,
    colliding, one_place, long_words, expects)
SIZES = {shape.__name__: 1000000 for shape in LINEAR}
SIZES.update({shape.__name__: 60000 for shape in (colliding, one_place, long_words)})
SECONDS = 300


class Measure(NamedTuple):
    size: int
    seconds: float
    memory: int
    status: int


def run_once(program, document, answer):
    """Runs the program, in a process of this one, whose own memory is small, since the system counts it in."""
    with open(document) as stdin, open(answer, "w") as stdout:
        child = subprocess.Popen([program], stdin=stdin, stdout=stdout, stderr=subprocess.DEVNULL)
        end = time.monotonic() + SECONDS
        while True:
            pid, status, usage = os.wait4(child.pid, os.WNOHANG)
            if pid:
                break
            if time.monotonic() > end:
                child.kill()
                _, status, usage = os.wait4(child.pid, 0)
                break
            time.sleep(0.002)
        child.returncode = os.waitstatus_to_exitcode(status)
    return Measure(os.path.getsize(document), usage.ru_utime + usage.ru_stime, usage.ru_maxrss * 1024, child.returncode)


def counted_lines(answer):
    with open(answer) as file:
        return dict(Counter(line.split(" ", 1)[0].rstrip("\n") for line in file))


def measure(program, shape, n, folder):
    """The least time of the runs; and whether the answer has the lines that it is to have."""
    document, answer, lines = (os.path.join(folder, name) for name in ("document", "answer", "lines"))
    subprocess.run([sys.executable, __file__, "--write", shape, str(n), document, lines], check=True)
    best = run_once(program, document, answer)
    for _ in range(2 if best.seconds < 20 else 0):
        best = min(best, run_once(program, document, answer), key=lambda one: one.seconds)
    with open(lines) as file:
        wanted = {name: int(count) for name, count in (line.split() for line in file)}
    status = wanted.pop("status")
    return best, best.status == status and counted_lines(answer) == wanted


def shown(one):
    ended = f", status {one.status}" if one.status > 0 else ", ended" * (one.status < 0)
    return f"{one.size / 1e6:.1f} MB | {one.seconds:.2f} s{ended} | {one.memory / 1e6:.0f} MB"


def main(program, wanted):
    chosen = [(name, int(n or SIZES[name])) for name, _, n in (word.partition("=") for word in wanted)]
    wrong = 0
    print("| shape | elements | document | time | most memory | times as much |\n|---|---|---|---|---|---|")
    with tempfile.TemporaryDirectory() as folder:
        for name, n in chosen or SIZES.items():
            tenth, is_tenth_right = measure(program, name, n // 10, folder)
            whole, is_right = measure(program, name, n, folder)
            print(f"| {name} | {n // 10:,} | {shown(tenth)} | |")
            times = f"{whole.seconds / max(tenth.seconds, 0.001):.1f} in time, {whole.memory / tenth.memory:.1f} in memory"
            print(f"| {name} | {n:,} | {shown(whole)} | {times} |", flush=True)
            if not (is_tenth_right and is_right):
                wrong += 1
                print(f"WRONG {name}: the answer has other lines")
    return 1 if wrong else 0


def write(shape, n, document, lines):
    made = globals()[shape](int(n))
    made.write(document)
    with open(lines, "w") as file:
        file.write(f"status {made.status}\n")
        file.writelines(f"{name} {count}\n" for name, count in made.lines.items() if count)


if __name__ == "__main__":
    if sys.argv[1] == "--write":
        write(*sys.argv[2:])
    else:
        sys.exit(main(sys.argv[1], sys.argv[2:]))
