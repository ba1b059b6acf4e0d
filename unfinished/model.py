#!/usr/bin/env python3
"""A second account of the program `shift`, by the plainest means, and the cases that the program is held to.

It is written from the rules in docs/ and uses nothing of the Rattle code. `session(input)` gives the
replies to a whole input.

    python3 tests/model.py                       write the cases: data/, args and stdout of crates/transcripts
    python3 tests/model.py compare PROGRAM       run PROGRAM on each case that is written there
    python3 tests/model.py fuzz PROGRAM N SEED   run PROGRAM on N further generated sessions, none of them kept
    python3 tests/model.py self                  hold the quick ways of this file to exhaustive search

Where a case is written by hand, so are its replies: by reasoning from the rules. The first command stops if
the model has others. The replies to the generated cases are the model's.
"""

import itertools
import os
import random
import re
import subprocess
import sys

# ---------------------------------------------------------------------------------------------------------
# Fields: numbers modulo p, and pairs above any field.

LISTED = (3, 7, 23, 29, 929, 2013265921, 4294967291)


class Prime:
    """The numbers 0 to p - 1."""

    width = 1

    def __init__(self, p):
        self.p = self.size = p
        self.zero, self.one = 0, 1

    def contains(self, a):
        return a < self.p

    def add(self, a, b):
        return (a + b) % self.p

    def neg(self, a):
        return -a % self.p

    def mul(self, a, b):
        return a * b % self.p

    def numbers(self, a):
        return [a]

    def element(self, numbers):
        return numbers[0]

    def elements(self):
        return range(self.p)

    def key(self):
        return (self.p,)


class Pairs:
    """Pairs (low, high) of elements of a field, read as low + high * y, where y * y is beta."""

    def __init__(self, base, beta):
        self.base, self.beta = base, beta
        self.size, self.width = base.size**2, 2 * base.width
        self.zero, self.one = (base.zero, base.zero), (base.one, base.zero)

    def contains(self, a):
        return self.base.contains(a[0]) and self.base.contains(a[1])

    def add(self, a, b):
        return (self.base.add(a[0], b[0]), self.base.add(a[1], b[1]))

    def neg(self, a):
        return (self.base.neg(a[0]), self.base.neg(a[1]))

    def mul(self, a, b):
        f = self.base
        return (
            f.add(f.mul(a[0], b[0]), f.mul(self.beta, f.mul(a[1], b[1]))),
            f.add(f.mul(a[0], b[1]), f.mul(a[1], b[0])),
        )

    def numbers(self, a):
        return self.base.numbers(a[0]) + self.base.numbers(a[1])

    def element(self, numbers):
        half = len(numbers) // 2
        return (self.base.element(numbers[:half]), self.base.element(numbers[half:]))

    def elements(self):
        return itertools.product(self.base.elements(), repeat=2)

    def key(self):
        return self.base.key() + (self.beta,)


def power(field, a, n):
    """a * a * ... * a, n times."""
    result = field.one
    while n:
        if n % 2:
            result = field.mul(result, a)
        a, n = field.mul(a, a), n // 2
    return result


def inverse(field, a):
    """The b with a * b = 1, for an a other than zero: a^(size - 1) is one."""
    b = power(field, a, field.size - 2)
    assert field.mul(a, b) == field.one
    return b


def sign(field, a):
    """The parity of the first number that is not zero."""
    for number in field.numbers(a):
        if number:
            return number % 2
    return 0


# ---------------------------------------------------------------------------------------------------------
# Roots.

SEARCHED = 3000  # fields with up to so many elements are searched
tables = {}


def root(field, a):
    """The root of a that has sign 0, or None."""
    return root_by_search(field, a) if field.size <= SEARCHED else root_by_power(field, a)


def root_by_search(field, a):
    """By squaring every element."""
    if field.key() not in tables:
        tables[field.key()] = {field.mul(x, x): x for x in field.elements() if sign(field, x) == 0}
    return tables[field.key()].get(a)


def root_by_power(field, a):
    """By Cipolla's way. A nonzero a is a square exactly if a^((size - 1) / 2) is one."""
    if a == field.zero:
        return field.zero
    if power(field, a, (field.size - 1) // 2) != field.one:
        return None
    choice = random.Random(0)
    while True:
        b = some_element(field, choice)
        beta = field.add(field.mul(b, b), field.neg(a))
        if beta == field.zero:
            x = b
            break
        if power(field, beta, (field.size - 1) // 2) != field.one:
            x, high = power(Pairs(field, beta), (b, field.one), (field.size + 1) // 2)
            assert high == field.zero
            break
    assert field.mul(x, x) == a
    return x if sign(field, x) == 0 else field.neg(x)


def some_element(field, choice):
    return field.element([choice.randrange(field.key()[0]) for _ in range(field.width)])


# ---------------------------------------------------------------------------------------------------------
# Blocks. The place of a symbol is the number of symbols after it.


def sums(field, alpha, block):
    """S_1 to S_4: for each j the sum over all places of symbol * alpha^(j * place)."""
    result = []
    for j in (1, 2, 3, 4):
        x, total, xk = power(field, alpha, j), field.zero, field.one
        for symbol in reversed(block):
            total = field.add(total, field.mul(symbol, xk))
            xk = field.mul(xk, x)
        result.append(total)
    return result


def is_code_word(field, alpha, block):
    return sums(field, alpha, block) == [field.zero] * 4


def near(field, alpha, block):
    """The code word that differs from the block in at most two symbols, or None."""
    n = len(block)
    if n * (n - 1) // 2 * field.size**2 <= 3000:
        return near_by_trial(field, alpha, block)
    return near_by_places(field, alpha, block)


def near_by_trial(field, alpha, block):
    """By trying every change of every two symbols."""
    found = set()
    for i, k in itertools.combinations(range(len(block)), 2):
        for x, y in itertools.product(field.elements(), repeat=2):
            other = list(block)
            other[i], other[k] = x, y
            if is_code_word(field, alpha, other):
                found.add(tuple(other))
    assert len(found) <= 1
    return list(found.pop()) if found else None


def near_by_places(field, alpha, block):
    """By trying every two places, with powers X and Y of alpha. What is wrong there, d and e, has
    S_j = d * X^j + e * Y^j. So T_j = S_(j+1) - X * S_j = e * (Y - X) * Y^j, and each T is Y times the one
    before. Conversely e follows from T_1, and d from S_1; then the block is mended, and tested."""
    n, s = len(block), sums(field, alpha, block)
    powers = [field.one]
    while len(powers) < n:
        powers.append(field.mul(powers[-1], alpha))
    for i in range(n):
        x = powers[i]
        t = [field.add(s[j + 1], field.neg(field.mul(x, s[j]))) for j in (0, 1, 2)]
        for k in range(i + 1, n):
            y = powers[k]
            if field.mul(y, t[0]) != t[1] or field.mul(y, t[1]) != t[2]:
                continue
            e = field.mul(t[0], inverse(field, field.mul(y, field.add(y, field.neg(x)))))
            d = field.mul(field.add(s[0], field.neg(field.mul(e, y))), inverse(field, x))
            other = list(block)
            other[n - 1 - i] = field.add(other[n - 1 - i], field.neg(d))
            other[n - 1 - k] = field.add(other[n - 1 - k], field.neg(e))
            if is_code_word(field, alpha, other):
                return other
    return None


def code_word(field, alpha, message):
    """Some code word with four symbols more than the message: its polynomial, times (x - alpha^j) for
    j = 1 to 4, is zero at these four."""
    word = list(message)
    for j in (1, 2, 3, 4):
        r = field.neg(power(field, alpha, j))
        shifted, scaled = word + [field.zero], [field.zero] + [field.mul(r, a) for a in word]
        word = [field.add(a, b) for a, b in zip(shifted, scaled)]
    assert is_code_word(field, alpha, word)
    return word


# ---------------------------------------------------------------------------------------------------------
# Lines.

LONGEST = 49152
NUMBER_KEYS = ("prime", "nonresidue", "length", "open")
ELEMENT_KEYS = ("step", "alpha", "find")
BARE_KEYS = ("engage", "release")


def read_number(text):
    """The number, or None."""
    if not re.fullmatch(rb"0|[1-9][0-9]*", text):
        return None
    number = int(text) if len(text) <= 10 else 2**32
    return number if number < 2**32 else None


def read_numbers(text):
    """One or more numbers with commas between them, or None."""
    numbers = [read_number(part) for part in text.split(b",")]
    return None if None in numbers else numbers


def read_line(line):
    """The key and its value, or None. A block has two: its number, and a list of numbers."""
    key, equals, value = line.partition(b"=")
    if not equals:
        return None
    try:
        key = key.decode("ascii")
    except UnicodeDecodeError:
        return None
    if key in NUMBER_KEYS:
        read = read_number(value)
    elif key in ELEMENT_KEYS:
        read = read_numbers(value)
    elif key in BARE_KEYS:
        read = () if value == b"" else None
    elif key == "block":
        number, colon, symbols = value.partition(b":")
        number = read_number(number)
        symbols = read_numbers(symbols) if symbols else []
        read = (number, symbols) if colon and number is not None and symbols is not None else None
    else:
        read = None
    return None if read is None else (key, read)


# ---------------------------------------------------------------------------------------------------------
# The session.


class Refused(Exception):
    def __init__(self, number):
        super().__init__(number)
        self.number = number


def refuse_if(fact, number):
    if fact:
        raise Refused(number)


PARKED, LOADING, READY, STEERING = "parked", "loading", "ready", "steering"


class Session:
    def __init__(self):
        self.ended = False
        self.due = ("prime",)
        self.modulus = self.field = self.generator = self.size = None
        self.steps = 0
        self.state = PARKED
        self.named = self.taken = 0

    def answer(self, line):
        """The reply to one line."""
        try:
            read = read_line(line) if len(line) <= LONGEST else None
            refuse_if(read is None, 14)
            key, value = read
            refuse_if(key not in self.due, 14)
            if key in ELEMENT_KEYS:
                refuse_if(len(value) != self.field.width, 14)
                value = self.field.element(value)
            said = getattr(self, "take_" + key)(value)
            return f"{key}={said or 'ok'}\n".encode()
        except Refused as refusal:
            self.ended = refusal.number <= 5 or refusal.number == 14
            return b"refused=%d\n" % refusal.number

    def take_prime(self, p):
        refuse_if(p not in LISTED, 1)
        self.modulus = p
        self.due = ("nonresidue",)

    def take_nonresidue(self, r):
        f = Prime(self.modulus)
        refuse_if(r == 0 or not f.contains(r) or root(f, r) is not None, 2)
        self.field = f
        self.due = ("step", "alpha")

    def take_step(self, beta):
        f = self.field
        refuse_if(not f.contains(beta) or root(f, beta) is not None, 3)
        self.field = Pairs(f, beta)
        self.steps += 1
        self.due = ("step", "alpha") if self.steps < 2 else ("alpha",)

    def take_alpha(self, a):
        self.generator = a
        self.due = ("length",)

    def take_length(self, n):
        f, a = self.field, self.generator
        refuse_if(not 5 <= n <= 1024, 4)
        refuse_if(not f.contains(a) or a == f.zero, 5)
        x = a
        for _ in range(1, n):
            refuse_if(x == f.one, 5)
            x = f.mul(x, a)
        self.size = n
        self.due = ("open", "block", "engage", "release", "find")

    def take_open(self, m):
        refuse_if(self.state == STEERING, 8)
        refuse_if(not 1 <= m <= 4096, 9)
        self.state, self.named, self.taken = LOADING, m, 0

    def take_block(self, value):
        number, numbers = value
        f = self.field
        refuse_if(self.state != LOADING, 8)
        refuse_if(number != self.taken, 10)
        refuse_if(len(numbers) != self.size * f.width, 11)
        block = [f.element(numbers[i : i + f.width]) for i in range(0, len(numbers), f.width)]
        refuse_if(not all(f.contains(a) for a in block), 12)
        mended = near(f, self.generator, block)
        refuse_if(mended is None, 13)
        self.taken += 1
        if self.taken == self.named:
            self.state = READY
        changed = sum(a != b for a, b in zip(block, mended))
        return f"{changed}:{written(f, mended)}"

    def take_engage(self, _):
        refuse_if(self.state != READY, 8)
        self.state = STEERING

    def take_release(self, _):
        refuse_if(self.state != STEERING, 8)
        self.state = PARKED

    def take_find(self, a):
        refuse_if(not self.field.contains(a), 6)
        x = root(self.field, a)
        refuse_if(x is None, 7)
        return written(self.field, [x])


def written(field, elements):
    """The numbers of the elements, with commas between them."""
    return ",".join(str(number) for a in elements for number in field.numbers(a))


def lines_of(text):
    """Byte 10 ends a line, and so does the end; after a byte 10 at the end no line begins."""
    lines = text.split(b"\n")
    return lines if lines[-1] else lines[:-1]


def session(text):
    """The replies to a whole input."""
    now, replies = Session(), []
    for line in lines_of(text):
        replies.append(now.answer(line))
        if now.ended:
            break
    return b"".join(replies)


# ---------------------------------------------------------------------------------------------------------
# Cases written by hand. In a dialog a line is followed by ' -> ' and its reply: 'ok' for that of its own
# key, a number for a refusal, nothing for a line that is not answered.


def dialog(text):
    """The input and the replies of a dialog."""
    lines, replies = [], []
    for row in text.strip("\n").split("\n"):
        line, reply = re.fullmatch(r"(.*) ->(.*)", row).groups()
        reply = reply.strip()
        lines.append(line + "\n")
        if reply == "ok":
            reply = line.partition("=")[0] + "=ok"
        elif reply.isdigit():
            reply = "refused=" + reply
        if reply:
            replies.append(reply + "\n")
    return "".join(lines).encode(), "".join(replies).encode()


# Modulo 929 with alpha = 3 and length 5 a code word is 1,809,723,568,522 or a multiple of it.
SEALED = """
prime=929 -> ok
nonresidue=3 -> ok
alpha=3 -> ok
length=5 -> ok
"""
LOADING_UNIT = SEALED + "open=1 -> ok\n"

# Modulo 7 the squares are 0, 1, 2, 4. The powers of 3 are 3, 2, 6, 4, 5, 1, and
# (x - 3)(x - 2)(x - 6)(x - 4) = x^4 + 6x^3 + 3x^2 + 2x + 4: the code words are multiples of 1,6,3,2,4.
SEVEN = """
prime=7 -> ok
nonresidue=3 -> ok
"""
# A pair is a square exactly if its norm a0^2 - 3 a1^2 is one modulo 7: that of 1,1 is 5, that of 0,1 is 4.
SEVEN_TWICE = SEVEN + "step=3 -> ok\n"
SEVEN_FOUR = SEVEN_TWICE + "step=1,1 -> ok\n"

# Modulo 3 with y^2 = 2 = -1: (1 + y)^2 = 2y, its square is -1, so the powers of 1,1 come to one at 8.
NINE = """
prime=3 -> ok
nonresidue=2 -> ok
step=2 -> ok
"""

ONES_28 = ",".join(["1"] * 28)
ONES_928 = ",".join(["1"] * 928)

DIALOGS = {
    "day": SEALED
    + """
open=1 -> ok
engage= -> 8
block=0:1,809,0,568,0 -> block=2:1,809,723,568,522
engage= -> ok
release= -> ok
release= -> 8
find=928 -> find=324
find=3 -> 7
""",
    # The modulus and the nonresidue.
    "modulus-0": "prime=0 -> 1\nnonresidue=0 ->",
    "modulus-1": "prime=1 -> 1\nnonresidue=0 ->",
    "modulus-2": "prime=2 -> 1\nnonresidue=1 ->",
    "modulus-5-not-listed": "prime=5 -> 1\nnonresidue=2 ->",
    "modulus-9": "prime=9 -> 1\nnonresidue=2 ->",
    "modulus-4294967295": "prime=4294967295 -> 1\nprime=3 ->",
    # 2 has the powers 2, 1: no length from 5 on.
    "modulus-3": "prime=3 -> ok\nnonresidue=2 -> ok\nalpha=2 -> ok\nlength=5 -> 5\nlength=5 ->",
    # p = 8 * 536870911 + 3, so 2 is no square. 65536^2 = 2^32 = p + 5. p leaves 3 modulo 4, so -1 is none.
    "modulus-4294967291": """
prime=4294967291 -> ok
nonresidue=2 -> ok
alpha=2 -> ok
length=1024 -> ok
find=0 -> find=0
find=1 -> find=4294967290
find=2 -> 7
find=4 -> find=2
find=5 -> find=65536
find=9 -> find=4294967288
find=4294967290 -> 7
find=4294967291 -> 6
find=4294967295 -> 6
""",
    "modulus-2013265921": """
prime=2013265921 -> ok
nonresidue=31 -> ok
step=31 -> ok
alpha=31,0 -> ok
length=1024 -> ok
find=0,0 -> find=0,0
find=1,0 -> find=2013265920,0
find=4,0 -> find=2,0
find=31,0 -> find=0,2013265920
find=0,2013265921 -> 6
find=2013265921,0 -> 6
""",
    "nonresidue-4-of-3": "prime=3 -> ok\nnonresidue=4 -> 2\nnonresidue=2 ->",
    "nonresidue-4-of-4294967291": "prime=4294967291 -> ok\nnonresidue=4 -> 2\nalpha=2 ->",
    "nonresidue-0": "prime=929 -> ok\nnonresidue=0 -> 2\nalpha=3 ->",
    "nonresidue-1": "prime=929 -> ok\nnonresidue=1 -> 2\nalpha=3 ->",
    "nonresidue-929-of-929": "prime=929 -> ok\nnonresidue=929 -> 2\nalpha=3 ->",
    "nonresidue-above-929": "prime=929 -> ok\nnonresidue=932 -> 2\nalpha=3 ->",
    # Steps.
    "step-zero": SEVEN + "step=0 -> 3\nalpha=3 ->",
    "step-square": SEVEN + "step=2 -> 3\nalpha=3 ->",
    "step-no-element": SEVEN + "step=10 -> 3\nalpha=3 ->",
    "second-step-square": SEVEN_TWICE + "step=0,1 -> 3\nalpha=3,0 ->",
    "second-step-from-below": SEVEN_TWICE + "step=3,0 -> 3\nalpha=3,0 ->",
    "second-step-no-element": SEVEN_TWICE + "step=1,8 -> 3\nalpha=3,0 ->",
    "second-step-of-one-number": SEVEN_TWICE + "step=3 -> 14\nalpha=3,0 ->",
    "first-step-of-two-numbers": SEVEN + "step=3,0 -> 14\nalpha=3 ->",
    "third-step": SEVEN_FOUR + "step=0,0,1,0 -> 14\nalpha=3,0,0,0 ->",
    "step-after-alpha": SEVEN + "alpha=3 -> ok\nstep=3 -> 14\nlength=5 ->",
    # Alpha and the length.
    "length-4-before-alpha-0": "prime=929 -> ok\nnonresidue=3 -> ok\nalpha=0 -> ok\nlength=4 -> 4\nlength=5 ->",
    "length-1025-before-alpha-0": "prime=929 -> ok\nnonresidue=3 -> ok\nalpha=0 -> ok\nlength=1025 -> 4\nfind=1 ->",
    "length-4": "prime=929 -> ok\nnonresidue=3 -> ok\nalpha=3 -> ok\nlength=4 -> 4\nlength=5 ->",
    "length-1025": "prime=2013265921 -> ok\nnonresidue=31 -> ok\nalpha=31 -> ok\nlength=1025 -> 4\nlength=5 ->",
    "length-0": "prime=929 -> ok\nnonresidue=3 -> ok\nalpha=3 -> ok\nlength=0 -> 4\nlength=5 ->",
    "length-4294967295": "prime=929 -> ok\nnonresidue=3 -> ok\nalpha=3 -> ok\nlength=4294967295 -> 4\nlength=5 ->",
    "alpha-0": "prime=929 -> ok\nnonresidue=3 -> ok\nalpha=0 -> ok\nlength=5 -> 5\nlength=5 ->",
    "alpha-1": "prime=929 -> ok\nnonresidue=3 -> ok\nalpha=1 -> ok\nlength=5 -> 5\nlength=5 ->",
    "alpha-no-element": "prime=929 -> ok\nnonresidue=3 -> ok\nalpha=932 -> ok\nlength=5 -> 5\nlength=5 ->",
    "alpha-high-half-no-element": SEVEN_TWICE + "alpha=3,7 -> ok\nlength=5 -> 5\nlength=5 ->",
    # Modulo 29: 2^4 = 16, 2^7 = 12, 2^14 = -1. So 2 comes to one at 28, and 16 at 7. A word of 28 equal
    # symbols has the sums s * (1 + x + .. + x^27) with x^28 = 1 and x not 1: they are zero.
    "length-28-of-29": "prime=29 -> ok\nnonresidue=2 -> ok\nalpha=2 -> ok\nlength=28 -> ok\nopen=1 -> ok\n"
    + "block=0:"
    + ONES_28.replace("1,1,1", "1,0,1", 1)[:-1]
    + "28 -> block=2:"
    + ONES_28
    + """
engage= -> ok
find=28 -> find=12
find=5 -> find=18
find=2 -> 7
find=29 -> 6
""",
    "length-29-of-29": "prime=29 -> ok\nnonresidue=2 -> ok\nalpha=2 -> ok\nlength=29 -> 5\nlength=28 ->",
    "length-7-of-order-7": "prime=29 -> ok\nnonresidue=2 -> ok\nalpha=16 -> ok\nlength=7 -> ok\nfind=0 -> find=0",
    "length-8-of-order-7": "prime=29 -> ok\nnonresidue=2 -> ok\nalpha=16 -> ok\nlength=8 -> 5\nfind=0 ->",
    "length-928-of-929": "prime=929 -> ok\nnonresidue=3 -> ok\nalpha=3 -> ok\nlength=928 -> ok\nopen=1 -> ok\n"
    + f"block=0:0,{ONES_928[4:]},0 -> block=2:{ONES_928}\n"
    + f"block=0:{ONES_928} -> 8\nengage= -> ok",
    "length-929-of-929": "prime=929 -> ok\nnonresidue=3 -> ok\nalpha=3 -> ok\nlength=929 -> 5\nlength=928 ->",
    "length-9-of-nine": NINE + "alpha=1,1 -> ok\nlength=9 -> 5\nlength=8 ->",
    # Roots.
    "roots-of-7": SEVEN
    + """
alpha=3 -> ok
length=6 -> ok
find=0 -> find=0
find=1 -> find=6
find=2 -> find=4
find=3 -> 7
find=4 -> find=2
find=5 -> 7
find=6 -> 7
find=7 -> 6
find=10 -> 6
find=4294967295 -> 6
find=4 -> find=2
""",
    "roots-of-23": """
prime=23 -> ok
nonresidue=5 -> ok
alpha=5 -> ok
length=22 -> ok
find=2 -> find=18
find=4 -> find=2
find=5 -> 7
find=22 -> 7
find=23 -> 6
find=25 -> 6
""",
    # y * y = 2: (1 + 2y)^2 = 1 + 2 * 4 + 4y = y, and (1 + y)^2 = 3 + 2y = 2y. Of the powers of 1,1 the odd
    # ones are no squares.
    "roots-of-nine": NINE
    + """
alpha=1,1 -> ok
length=8 -> ok
find=0,0 -> find=0,0
find=1,0 -> find=2,0
find=2,0 -> find=0,2
find=0,1 -> find=2,1
find=0,2 -> find=2,2
find=1,1 -> 7
find=2,2 -> 7
find=1,2 -> 7
find=2,1 -> 7
find=3,0 -> 6
find=0,3 -> 6
find=4,4 -> 6
""",
    # z * z = 1,1, which has no root below. The norm of z is -(1,1), no square either, so z has no root.
    "roots-of-eighty-one": NINE
    + """
step=1,1 -> ok
alpha=1,1,0,0 -> ok
length=8 -> ok
find=1,1,0,0 -> find=0,0,2,0
find=2,0,0,0 -> find=0,2,0,0
find=0,1,0,0 -> find=2,1,0,0
find=0,0,1,0 -> 7
find=0,0,0,0 -> find=0,0,0,0
find=0,0,0,3 -> 6
find=0,0,3,0 -> 6
find=1,1,0,0 -> find=0,0,2,0
""",
    "roots-of-7-two-numbers": SEVEN_TWICE
    + """
alpha=3,0 -> ok
length=6 -> ok
find=4,2 -> find=6,6
find=3,0 -> find=0,6
find=2,0 -> find=4,0
find=0,0 -> find=0,0
find=1,1 -> 7
find=7,0 -> 6
find=0,7 -> 6
""",
    "roots-of-7-four-numbers": SEVEN_FOUR
    + """
alpha=3,0,0,0 -> ok
length=6 -> ok
find=1,1,0,0 -> find=0,0,6,0
find=3,0,0,0 -> find=0,6,0,0
find=4,2,0,0 -> find=6,6,0,0
find=2,0,0,0 -> find=4,0,0,0
find=0,0,1,0 -> 7
find=4,2,7,0 -> 6
""",
    # Elements of another count than the field has.
    "alpha-of-two-numbers": SEVEN + "alpha=3,0 -> 14\nalpha=3 ->",
    "alpha-of-one-number-after-a-step": SEVEN_TWICE + "alpha=3 -> 14\nalpha=3,0 ->",
    "alpha-of-three-numbers": SEVEN_FOUR + "alpha=3,0,0 -> 14\nalpha=3,0,0,0 ->",
    "find-of-two-numbers": SEALED + "find=1,0 -> 14\nfind=1 ->",
    "find-of-one-number-after-a-step": SEVEN_TWICE + "alpha=3,0 -> ok\nlength=5 -> ok\nfind=4 -> 14\nfind=4,2 ->",
    "find-of-five-numbers": SEVEN_FOUR + "alpha=3,0,0,0 -> ok\nlength=5 -> ok\nfind=1,0,0,0,0 -> 14\nengage= ->",
    # Orders. Refusals 8 to 13 end nothing and change nothing.
    "orders-refused": SEALED
    + """
engage= -> 8
release= -> 8
block=0:1,809,723,568,522 -> 8
block=7:929 -> 8
block=0: -> 8
open=0 -> 9
open=4097 -> 9
open=4294967295 -> 9
block=0:1,809,723,568,522 -> 8
open=2 -> ok
engage= -> 8
release= -> 8
block=1:1,809,723,568,522 -> 10
block=1:929 -> 10
block=1: -> 10
block=4294967295:0,0,0,0,0 -> 10
block=0: -> 11
block=0:1,809,723,568 -> 11
block=0:1,809,723,568,522,0 -> 11
block=0:929,1,1,1 -> 11
block=0:929,1,1,1,1 -> 12
block=0:1,809,723,568,929 -> 12
block=0:930,809,723,568,522 -> 12
block=0:4294967295,809,723,568,522 -> 12
block=0:1,1,1,1,1 -> 13
block=0:1,809,0,568,0 -> block=2:1,809,723,568,522
open=0 -> 9
open=4097 -> 9
block=0:1,809,723,568,522 -> 10
block=2:1,809,723,568,522 -> 10
engage= -> 8
block=1:2,689,517,207,115 -> block=0:2,689,517,207,115
block=2:0,0,0,0,0 -> 8
block=1:929 -> 8
release= -> 8
open=0 -> 9
engage= -> ok
open=0 -> 8
open=1 -> 8
open=4097 -> 8
block=0:1,809,723,568,522 -> 8
block=2:1,809,723,568,522 -> 8
engage= -> 8
find=928 -> find=324
find=932 -> 6
find=3 -> 7
release= -> ok
release= -> 8
engage= -> 8
block=0:1,809,723,568,522 -> 8
""",
    "open-limits": SEALED
    + """
open=1 -> ok
open=4096 -> ok
open=4097 -> 9
open=0 -> 9
block=0:0,0,0,0,0 -> block=0:0,0,0,0,0
engage= -> 8
open=1 -> ok
block=0:0,0,0,0,0 -> block=0:0,0,0,0,0
open=4097 -> 9
engage= -> ok
""",
    "open-again": SEALED
    + """
open=3 -> ok
block=0:0,0,0,0,0 -> block=0:0,0,0,0,0
block=1:0,0,0,0,0 -> block=0:0,0,0,0,0
open=2 -> ok
block=2:0,0,0,0,0 -> 10
block=1:0,0,0,0,0 -> 10
block=0:0,0,0,0,0 -> block=0:0,0,0,0,0
block=0:0,0,0,0,0 -> 10
block=1:0,0,0,0,0 -> block=0:0,0,0,0,0
open=1 -> ok
engage= -> 8
block=0:0,0,0,0,0 -> block=0:0,0,0,0,0
engage= -> ok
release= -> ok
engage= -> 8
open=1 -> ok
release= -> 8
block=0:0,0,0,0,0 -> block=0:0,0,0,0,0
engage= -> ok
release= -> ok
""",
    # A block is near c times the code word if three symbols agree. In 1,809,517,207,0 two have the ratio 1,
    # two the ratio 2 and one the ratio 0.
    "blocks-of-929": SEALED
    + """
open=9 -> ok
block=0:1,809,723,568,522 -> block=0:1,809,723,568,522
block=1:1,809,723,568,523 -> block=1:1,809,723,568,522
block=2:0,809,723,568,522 -> block=1:1,809,723,568,522
block=3:928,928,723,568,522 -> block=2:1,809,723,568,522
block=4:1,809,723,0,0 -> block=2:1,809,723,568,522
block=5:1,809,517,207,115 -> block=2:2,689,517,207,115
block=6:1,809,517,207,0 -> 13
block=6:5,7,0,0,0 -> block=2:0,0,0,0,0
block=7:0,0,0,0,1 -> block=1:0,0,0,0,0
block=8:0,0,0,0,0 -> block=0:0,0,0,0,0
engage= -> ok
""",
    # With length 6 they are the sums of multiples of 1,6,3,2,4,0 and 0,1,6,3,2,4; six equal symbols are one too.
    "blocks-of-7": SEVEN
    + """
alpha=3 -> ok
length=6 -> ok
open=5 -> ok
block=0:1,6,3,2,4,0 -> block=0:1,6,3,2,4,0
block=1:0,1,6,0,2,0 -> block=2:0,1,6,3,2,4
block=2:1,0,2,5,6,0 -> block=1:1,0,2,5,6,4
block=3:1,1,1,1,1,1 -> block=0:1,1,1,1,1,1
block=4:5,5,5,1,2,5 -> block=2:5,5,5,5,5,5
engage= -> ok
""",
    "block-ragged-two-numbers": SEVEN_TWICE
    + """
alpha=3,0 -> ok
length=5 -> ok
open=3 -> ok
block=0:1,0,6,0,3,0,2,0,4 -> 11
block=0:1,0,6,0,3,0,2,0,4,0,0 -> 11
block=0:1,6,3,2,4 -> 11
block=0:1,0,6,0,3,0,2,0 -> 11
block=0:1,0,6,0,3,0,2,0,4,0,0,0 -> 11
block=0:7,7,7 -> 11
block=0: -> 11
block=0:1,0,6,0,3,7,2,0,4,0 -> 12
block=0:1,0,6,0,6,0,4,0,0,0 -> 13
block=0:1,0,6,0,3,5,2,0,0,0 -> block=2:1,0,6,0,3,0,2,0,4,0
block=1:1,1,6,6,5,5,2,2,4,4 -> block=1:1,1,6,6,3,3,2,2,4,4
block=2:0,1,0,6,0,3,0,2,0,4 -> block=0:0,1,0,6,0,3,0,2,0,4
engage= -> ok
""",
    "block-ragged-four-numbers": SEVEN_FOUR
    + """
alpha=3,0,0,0 -> ok
length=5 -> ok
open=1 -> ok
block=0:1,2,3,4,6,5,4,3,3,6,2,5,2,4,6,1,4,1,5 -> 11
block=0:1,2,3,4,6,5,4,3,3,6,2,5,2,4,6,1,4,1 -> 11
block=0:1,2,3,4,6,5,4,3,3,6,2,5,2,4,6,1,4,1,5,2,0 -> 11
block=0:1,2,3,4,6 -> 11
block=0:1,2,3,4,6,5,4,3,3,6 -> 11
block=0: -> 11
block=0:1,2,3,4,6,5,4,3,3,6,2,5,2,4,6,1,4,1,5,7 -> 12
block=0:1,2,3,4,0,0,0,0,3,6,2,5,2,4,6,1,4,1,5,3 -> block=2:1,2,3,4,6,5,4,3,3,6,2,5,2,4,6,1,4,1,5,2
engage= -> ok
release= -> ok
""",
    # The powers of 1,1 come to one at 8, so eight equal symbols are a code word.
    "blocks-of-nine": NINE
    + """
alpha=1,1 -> ok
length=8 -> ok
open=3 -> ok
block=0:1,2,1,2,1,2,1,2,1,2,1,2,1,2,1,2 -> block=0:1,2,1,2,1,2,1,2,1,2,1,2,1,2,1,2
block=1:0,1,2,0,0,1,0,1,0,1,0,1,0,1,0,0 -> block=2:0,1,0,1,0,1,0,1,0,1,0,1,0,1,0,1
block=2:0,0,0,0,0,0,0,0,1,2,0,0,0,0,0,0 -> block=1:0,0,0,0,0,0,0,0,0,0,0,0,0,0,0,0
engage= -> ok
""",
    # Lines out of order.
    "order-nonresidue-first": "nonresidue=2 -> 14\nprime=3 ->",
    "order-alpha-before-nonresidue": "prime=3 -> ok\nalpha=2 -> 14\nnonresidue=2 ->",
    "order-prime-twice": "prime=3 -> ok\nprime=3 -> 14\nnonresidue=2 ->",
    "order-length-before-alpha": "prime=3 -> ok\nnonresidue=2 -> ok\nlength=5 -> 14\nalpha=2 ->",
    "order-alpha-twice": SEVEN + "alpha=3 -> ok\nalpha=3 -> 14\nlength=5 ->",
    "order-open-before-length": SEVEN + "alpha=3 -> ok\nopen=1 -> 14\nlength=5 ->",
    "order-block-before-length": SEVEN + "alpha=3 -> ok\nblock=0:1,6,3,2,4 -> 14\nlength=5 ->",
    "order-engage-first": "engage= -> 14\nprime=3 ->",
    "order-release-before-alpha": SEVEN + "release= -> 14\nalpha=3 ->",
    "order-find-before-length": SEVEN + "alpha=3 -> ok\nfind=2 -> 14\nlength=5 ->",
    "order-length-twice": SEALED + "length=5 -> 14\nopen=1 ->",
    "order-alpha-after-length": SEALED + "alpha=3 -> 14\nopen=1 ->",
    "order-prime-after-length": LOADING_UNIT + "prime=929 -> 14\nblock=0:0,0,0,0,0 ->",
    # Lines that cannot be read: 14 comes before 1, 8, 9, 10, 11.
    "unreadable-capital": "Prime=3 -> 14\nprime=3 ->",
    "unreadable-longer-key": "primes=3 -> 14\nprime=3 ->",
    "unreadable-shorter-key": "prim=3 -> 14\nprime=3 ->",
    "unreadable-other-key": "report= -> 14\nprime=3 ->",
    "unreadable-no-equals": "prime3 -> 14\nprime=3 ->",
    "unreadable-key-alone": "prime -> 14\nprime=3 ->",
    "unreadable-equals-twice": "prime==3 -> 14\nprime=3 ->",
    "unreadable-no-value": "prime= -> 14\nprime=3 ->",
    "unreadable-leading-zero": "prime=03 -> 14\nprime=3 ->",
    "unreadable-two-zeros": "prime=00 -> 14\nprime=3 ->",
    "unreadable-plus-sign": "prime=+3 -> 14\nprime=3 ->",
    "unreadable-minus-sign": "prime=-3 -> 14\nprime=3 ->",
    "unreadable-blank-before-key": " prime=3 -> 14\nprime=3 ->",
    "unreadable-blank-before-value": "prime= 3 -> 14\nprime=3 ->",
    "unreadable-blank-after-value": "prime=3  -> 14\nprime=3 ->",
    "unreadable-two-numbers": "prime=3,3 -> 14\nprime=3 ->",
    "unreadable-letter": "prime=3x -> 14\nprime=3 ->",
    "unreadable-4294967296": "prime=4294967296 -> 14\nprime=3 ->",
    "unreadable-3-above-2-to-the-32": "prime=4294967299 -> 14\nprime=3 ->",
    "unreadable-3-above-2-to-the-64": "prime=18446744073709551619 -> 14\nprime=3 ->",
    "unreadable-comma-at-end": SEVEN_TWICE + "alpha=3,0, -> 14\nalpha=3,0 ->",
    "unreadable-comma-at-start": SEVEN_TWICE + "alpha=,3,0 -> 14\nalpha=3,0 ->",
    "unreadable-two-commas": SEVEN_TWICE + "alpha=3,,0 -> 14\nalpha=3,0 ->",
    "unreadable-comma-only": SEVEN_TWICE + "alpha=, -> 14\nalpha=3,0 ->",
    "unreadable-find-no-value": SEALED + "find= -> 14\nfind=1 ->",
    "unreadable-engage-value": SEALED + "engage=1 -> 14\nopen=1 ->",
    "unreadable-engage-no-equals": SEALED + "engage -> 14\nopen=1 ->",
    "unreadable-release-ok": SEALED + "release=ok -> 14\nopen=1 ->",
    "unreadable-open-no-value": SEALED + "open= -> 14\nopen=1 ->",
    "unreadable-open-4294967296": SEALED + "open=4294967296 -> 14\nopen=1 ->",
    "unreadable-open-colon": SEALED + "open=1: -> 14\nopen=1 ->",
    "unreadable-block-no-colon": LOADING_UNIT + "block=0 -> 14\nblock=0:0,0,0,0,0 ->",
    "unreadable-block-comma-for-colon": LOADING_UNIT + "block=0,0,0,0,0,0 -> 14\nblock=0:0,0,0,0,0 ->",
    "unreadable-block-nothing": SEALED + "block= -> 14\nopen=1 ->",
    "unreadable-block-no-number": LOADING_UNIT + "block=:0,0,0,0,0 -> 14\nblock=0:0,0,0,0,0 ->",
    "unreadable-block-number-leading-zero": LOADING_UNIT + "block=00:0,0,0,0,0 -> 14\nblock=0:0,0,0,0,0 ->",
    "unreadable-block-number-4294967296": SEALED + "block=4294967296:0,0,0,0,0 -> 14\nopen=1 ->",
    "unreadable-block-second-colon": LOADING_UNIT + "block=0:0,0,0:0,0 -> 14\nblock=0:0,0,0,0,0 ->",
    "unreadable-block-two-colons": LOADING_UNIT + "block=0::0,0,0,0,0 -> 14\nblock=0:0,0,0,0,0 ->",
    "unreadable-block-two-commas": SEALED + "block=0:0,,0,0,0 -> 14\nopen=1 ->",
    "unreadable-block-comma-at-end": LOADING_UNIT + "block=9:0,0,0,0,0, -> 14\nblock=0:0,0,0,0,0 ->",
    "unreadable-block-comma-only": LOADING_UNIT + "block=0:, -> 14\nblock=0:0,0,0,0,0 ->",
    "unreadable-block-leading-zero": LOADING_UNIT + "block=0:0,0,0,0,01 -> 14\nblock=0:0,0,0,0,0 ->",
    "unreadable-block-4294967296": LOADING_UNIT + "block=0:4294967296,0,0,0,0 -> 14\nblock=0:0,0,0,0,0 ->",
    "unreadable-block-blank": LOADING_UNIT + "block=0:0, 0,0,0,0 -> 14\nblock=0:0,0,0,0,0 ->",
    "empty-line-between": "prime=3 -> ok\n -> 14\nnonresidue=2 ->",
    # What comes after a refusal that ends the session is not answered, be it ever so right.
    "after-the-end": "prime=2 -> 1\nprime=929 ->\nnonresidue=3 ->\nalpha=3 ->\nlength=5 ->\nopen=1 ->\nfind=1 ->",
}


def block_line(size):
    """A block line of so many bytes, an even number: a number of two digits, and then zeros."""
    return b"block=0:10" + b",0" * ((size - 10) // 2)


def byte_cases():
    """Cases that are no plain dialogs: name, input, replies."""
    loading, loading_replies = dialog(LOADING_UNIT)
    yield "empty-input", b"", b""
    yield "empty-line", b"\n", b"refused=14\n"
    yield "two-empty-lines", b"\n\n", b"refused=14\n"
    yield "last-newline-missing", b"prime=3\nnonresidue=2", b"prime=ok\nnonresidue=ok\n"
    yield "only-line-without-newline", b"prime=9", b"refused=1\n"
    yield "unreadable-without-newline", b"prime=3\nnonresidue", b"prime=ok\nrefused=14\n"
    yield "newline-at-the-end", b"prime=3\n", b"prime=ok\n"
    yield "two-newlines-at-the-end", b"prime=3\n\n", b"prime=ok\nrefused=14\n"
    yield "return-before-newline", b"prime=3\r\nnonresidue=2\r\n", b"refused=14\n"
    yield "return-for-newline", b"prime=3\rnonresidue=2\r", b"refused=14\n"
    yield "nul-after-value", b"prime=3\0\nprime=3\n", b"refused=14\n"
    yield "nul-line", b"prime=3\n\0\nnonresidue=2\n", b"prime=ok\nrefused=14\n"
    yield "byte-255", b"prime=3\xff\nprime=3\n", b"refused=14\n"
    yield "byte-255-in-key", b"\xffprime=3\nprime=3\n", b"refused=14\n"
    yield "tab-after-value", b"prime=3\t\nprime=3\n", b"refused=14\n"
    yield "byte-order-mark", b"\xef\xbb\xbfprime=3\n", b"refused=14\n"
    # 49152 bytes are read: 24572 numbers, where 5 are due. One byte more are not, and the session ends.
    longest = block_line(LONGEST)
    yield (
        "line-of-49152-bytes",
        loading + longest + b"\nblock=0:0,0,0,0,0\nengage=\n",
        loading_replies + b"refused=11\nblock=0:0,0,0,0,0\nengage=ok\n",
    )
    longer = longest.replace(b":10,", b":100,")
    yield "line-of-49153-bytes", loading + longer + b"\nengage=\n", loading_replies + b"refused=14\n"
    yield "line-without-end", loading + b"find=" + b"1" * 59995, loading_replies + b"refused=14\n"
    yield ("largest-block",) + largest_block()


def largest_block():
    """A block of 1024 symbols of four numbers each, changed in the symbols 1 and 1000 as they are sent."""
    head, replies = dialog(
        """
prime=4294967291 -> ok
nonresidue=2 -> ok
step=2 -> ok
step=1,2 -> ok
alpha=2,0,0,0 -> ok
length=1024 -> ok
open=1 -> ok
"""
    )
    field = Pairs(Pairs(Prime(4294967291), 2), (1, 2))
    choice = random.Random(1024)
    word = code_word(field, field.element([2, 0, 0, 0]), [some_element(field, choice) for _ in range(1020)])
    block = list(word)
    block[1], block[1000] = field.zero, field.one
    return (
        head + f"block=0:{written(field, block)}\nengage=\n".encode(),
        replies + f"block=2:{written(field, word)}\nengage=ok\n".encode(),
    )


def hand_cases():
    for name, text in DIALOGS.items():
        yield (name,) + dialog(text.replace("\n\n", "\n"))
    yield from byte_cases()


# ---------------------------------------------------------------------------------------------------------
# Generated cases.

KEPT = 40
KEPT_SEED = 417
GROUNDS = [(p, h) for p in LISTED for h in (0, 1, 2)]


class Writer:
    """Writes a session line by line, and keeps a model of it beside, to know which lines fit."""

    def __init__(self, choice, ground, faults):
        self.choice, self.faults = choice, faults
        self.model, self.text = Session(), b""
        self.begin(*ground)

    def say(self, line):
        self.text += line.encode() + b"\n"
        if not self.model.ended:
            self.model.answer(line.encode())

    def chance(self, fraction):
        return self.choice.random() < fraction

    def begin(self, p, height):
        """The lines up to the length. With faults each is now and then another than it should be."""
        f = Prime(p)
        self.say(f"prime={p if not self.fault() else self.choice.choice((p + 1, 5, 27, 1))}")
        self.say(f"nonresidue={self.nonsquare(f) if not self.fault() else self.choice.randrange(p + 2)}")
        for _ in range(height):
            beta = self.nonsquare(f)
            self.say(f"step={written(f, [beta if not self.fault() else some_element(f, self.choice)])}")
            f = Pairs(f, beta)
        length, alpha = self.seal(f)
        self.say(f"alpha={written(f, [alpha])}")
        self.say(f"length={length}")

    def fault(self):
        return self.chance(0.15 * self.faults)

    def nonsquare(self, f):
        while True:
            a = some_element(f, self.choice)
            if root(f, a) is None:
                return a

    def seal(self, f):
        """A length and an alpha; only with faults they may be wrong. Modulo 3 no alpha is right."""
        for _ in range(1000):
            alpha = some_element(f, self.choice)
            order, x = 1, alpha
            while x != f.one and order < 40 and alpha != f.zero:
                order, x = order + 1, f.mul(x, alpha)
            if self.fault() or f.size == 3:
                return self.choice.choice((4, 5, 6, order, order + 1, 1025)), alpha
            if alpha != f.zero and order >= 5:
                return min(order, self.choice.choice((5, 5, 6, 7, 8, 12))), alpha
        raise AssertionError("no generator was found")

    def any_line(self):
        """One order or question, mostly one that fits."""
        m = self.model
        if m.ended or m.size is None:
            return "engage="
        if self.chance(0.25):
            return self.a_find()
        if self.chance(0.25):
            return self.choice.choice((self.an_open(), "engage=", "release=", self.a_block()))
        return {
            PARKED: self.an_open,
            LOADING: self.a_block,
            READY: lambda: "engage=",
            STEERING: lambda: "release=",
        }[m.state]()

    def an_open(self):
        return f"open={self.choice.choice((1, 1, 2, 2, 3, 4, 5, 0, 4096, 4097, 2**32 - 1))}"

    def a_find(self):
        f = self.model.field
        a = some_element(f, self.choice)
        numbers = f.numbers(f.mul(a, a) if self.chance(0.6) else a)
        if self.chance(0.15):
            numbers[self.choice.randrange(len(numbers))] += f.key()[0]
        return "find=" + ",".join(map(str, numbers))

    def a_block(self):
        """Mostly a code word that is changed in up to three symbols."""
        m, f = self.model, self.model.field
        number = m.taken if self.chance(0.9) else self.choice.choice((0, 1, m.taken + 1, 2**32 - 1))
        block = code_word(f, m.generator, [some_element(f, self.choice) for _ in range(m.size - 4)])
        for place in self.choice.sample(range(m.size), self.choice.choice((0, 0, 1, 1, 2, 2, 2, 3))):
            block[place] = some_element(f, self.choice)
        numbers = [n for a in block for n in f.numbers(a)]
        if self.chance(0.06):
            numbers[self.choice.randrange(len(numbers))] += f.key()[0]
        if self.chance(0.06):
            numbers = (numbers + [0])[: self.choice.choice((0, 1, m.size, len(numbers) - 1, len(numbers) + 1))]
        return f"block={number}:" + ",".join(map(str, numbers))


def generated(choice, ground, count, faults):
    """A session of so many lines after the length."""
    writer = Writer(choice, ground, faults)
    for _ in range(count):
        writer.say(writer.any_line())
    text = writer.text
    if faults and choice.random() < 0.5:
        place = choice.randrange(len(text))
        byte = choice.choice(b"0123456789,,,:::==\n\n- aeprinostuglk\r\0\xff")
        text = text[:place] + choice.choice((b"", bytes([byte]))) + text[place + choice.choice((0, 1)) :]
    return text if choice.random() < 0.8 else text[:-1]


def generated_cases():
    choice = random.Random(KEPT_SEED)
    grounds = [(p, h) for p, h in GROUNDS if p < 1000 and (p, h) != (3, 0)]
    for i in range(KEPT):
        text = generated(choice, grounds[i % len(grounds)], 40, 0)
        yield f"generated-{i + 1:02}", text, session(text)


def long_cases():
    """Cases that are not kept, for their size."""
    loading, _ = dialog(LOADING_UNIT)
    for size in (LONGEST, LONGEST + 2):
        yield "last line", loading + block_line(size)
        yield "line", loading + block_line(size) + b"\nfind=1\n"
    yield "last line", loading + block_line(LONGEST).replace(b":10,", b":100,")
    day = "open=4096\n" + "".join(f"block={k}:0,0,0,0,{k % 3}\n" for k in range(4097)) + "engage=\nrelease=\n"
    yield "4096 blocks", loading + day.encode()
    yield "many questions", loading + b"".join(b"find=%d\n" % n for n in range(1000))


# ---------------------------------------------------------------------------------------------------------
# Commands.

CRATE = os.path.join(os.path.dirname(os.path.dirname(os.path.abspath(__file__))), "crates", "transcripts")
DATA = os.path.join(CRATE, "data")


def write_cases():
    cases = []
    for name, text, replies in hand_cases():
        if session(text) != replies:
            sys.exit(f"{name}: the model replies\n{session(text)}\nby hand\n{replies}")
        cases.append((name, text, replies))
    by_hand = len(cases)
    cases += generated_cases()
    assert len({name for name, _, _ in cases}) == len(cases)
    os.makedirs(DATA, exist_ok=True)
    for name in os.listdir(DATA):
        os.remove(os.path.join(DATA, name))
    for name, text, _ in cases:
        with open(os.path.join(DATA, name), "wb") as file:
            file.write(text)
    with open(os.path.join(CRATE, "args"), "wb") as file:
        file.write(b"".join(name.encode() + b"\n" for name, _, _ in cases))
    with open(os.path.join(CRATE, "stdout"), "wb") as file:
        file.write(b"".join(name.encode() + b"\n" + replies for name, _, replies in cases))
    given = b"".join(replies for _, _, replies in cases)
    print(f"{by_hand} cases by hand, {len(cases) - by_hand} generated, {sum(len(t) for _, t, _ in cases)} bytes")
    print(f"{given.count(10)} replies; refused:", {n: given.count(b"refused=%d\n" % n) for n in range(1, 15)})
    print("symbols changed:", {n: given.count(b"block=%d:" % n) for n in (0, 1, 2)})


def run(program, text):
    done = subprocess.run([program], input=text, stdout=subprocess.PIPE, check=True)
    return done.stdout


def hold(program, cases):
    """Runs the program on cases (name, input), and tells where it has other replies than the model."""
    count, replies, differences = 0, 0, 0
    for name, text in cases:
        due, got = session(text), run(program, text)
        count, replies = count + 1, replies + due.count(10)
        if due != got:
            differences += 1
            print(f"{name}: input\n{text}\nmodel\n{due}\nprogram\n{got}")
    print(f"{count} inputs, {replies} replies, {differences} differences")
    return 1 if differences else 0


def compare(program):
    def cases():
        for name in sorted(os.listdir(DATA)):
            with open(os.path.join(DATA, name), "rb") as file:
                yield name, file.read()
        yield from long_cases()

    return hold(program, cases())


def fuzz(program, count, seed):
    choice = random.Random(seed)
    return hold(
        program,
        ((f"session {i}", generated(choice, choice.choice(GROUNDS), choice.randrange(30), 1)) for i in range(count)),
    )


def self_test():
    """The quick ways beside exhaustive search, on small fields."""
    choice = random.Random(5)
    nine = Pairs(Prime(3), 2)
    fields = [Prime(p) for p in (3, 7, 23, 29)] + [nine, Pairs(nine, (1, 1)), Pairs(Prime(7), 3), Pairs(Prime(29), 2)]
    roots = blocks = 0
    for field in fields:
        for a in field.elements():
            assert root_by_search(field, a) == root_by_power(field, a)
            roots += 1
    codes = [(Prime(7), 3, 5), (Prime(7), 3, 6), (nine, (1, 1), 5), (nine, (1, 1), 7)]
    for field, alpha, n in codes + [(Prime(23), 5, 5), (Prime(29), 2, 5)]:
        for i in range(12):
            block = code_word(field, alpha, [some_element(field, choice) for _ in range(n - 4)])
            for place in choice.sample(range(n), i % 4):
                block[place] = some_element(field, choice)
            assert near_by_trial(field, alpha, block) == near_by_places(field, alpha, block)
            blocks += 1
    print(f"{roots} roots and {blocks} blocks agree")


def main(words):
    if not words:
        return write_cases()
    if words[0] == "compare" and len(words) == 2:
        return compare(words[1])
    if words[0] == "fuzz" and len(words) == 4:
        return fuzz(words[1], int(words[2]), int(words[3]))
    if words == ["self"]:
        return self_test()
    return __doc__


if __name__ == "__main__":
    sys.exit(main(sys.argv[1:]))
