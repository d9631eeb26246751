"""The formulas whose proofs lie here, in DIMACS, to standard output: cnf.py adder BITS | parity VARIABLES WINDOW | pigeonhole HOLES."""
import random
import sys


class Formula:
    def __init__(self):
        self.count, self.clauses = 0, []

    def var(self):
        self.count += 1
        return self.count

    def add(self, *lits):
        self.clauses.append(lits)

    def xor(self, a, b):
        o = self.var()
        for clause in (-o, a, b), (-o, -a, -b), (o, -a, b), (o, a, -b):
            self.add(*clause)
        return o

    def both(self, a, b):
        o = self.var()
        for clause in (-o, a), (-o, b), (o, -a, -b):
            self.add(*clause)
        return o

    def either(self, a, b):
        return -self.both(-a, -b)


def ripple(f, a, b, majority):
    out, carry = [], None
    for x, y in zip(a, b):
        if carry is None:
            out.append(f.xor(x, y))
            carry = f.both(x, y)
            continue
        p = f.xor(x, y)
        out.append(f.xor(p, carry))
        if majority:
            carry = f.either(f.either(f.both(x, y), f.both(x, carry)), f.both(y, carry))
        else:
            carry = f.either(f.both(x, y), f.both(p, carry))
    return out + [carry]


def adder(bits):
    """Two ripple-carry adders, one with its carries as majorities and its numbers swapped, differ in some bit."""
    f = Formula()
    a, b = [f.var() for _ in range(bits)], [f.var() for _ in range(bits)]
    s, t = ripple(f, a, b, False), ripple(f, b, a, True)
    f.add(*[f.xor(x, y) for x, y in zip(s, t)])
    return f


def parity(count, window):
    """The parity of some variables, taken in order, differs from that taken in another order; none moves far at a time."""
    f, draw = Formula(), random.Random(1)
    first = [f.var() for _ in range(count)]
    second = first[:]
    for i in range(count - window):
        j = i + draw.randrange(window)
        second[i], second[j] = second[j], second[i]
    ends = []
    for order in first, second:
        chain = order[0]
        for x in order[1:]:
            chain = f.xor(chain, x)
        ends.append(chain)
    f.add(*ends)
    f.add(*[-x for x in ends])
    return f


def pigeonhole(holes):
    """One pigeon more than holes, each in a hole, no two in the same."""
    f = Formula()
    sits = [[f.var() for _ in range(holes)] for _ in range(holes + 1)]
    for pigeon in sits:
        f.add(*pigeon)
    for hole in range(holes):
        for i in range(holes + 1):
            for j in range(i):
                f.add(-sits[i][hole], -sits[j][hole])
    return f


formula = {"adder": adder, "parity": parity, "pigeonhole": pigeonhole}[sys.argv[1]](*map(int, sys.argv[2:]))
print("p cnf", formula.count, len(formula.clauses))
for clause in formula.clauses:
    print(*clause, 0)
