#!/usr/bin/env python3
"""Vectors of the two sponges, of the seed and of a run over each, computed from their rules and from no code of this repository.

    tools/sponge_vectors.py

Prints one line for each vector; the numbers stand in the tests of crates/examples.
"""
WORD = 2 ** 32


class Rolling:
    def __init__(self):
        self.s = 0

    def take(self, n):
        self.s = (1664525 * self.s + n + 1013904223) % WORD

    def give(self):
        self.take(0)
        return self.s


class Duplex:
    def __init__(self):
        self.words, self.place = [0] * 8, 0

    def mix(self):
        for _ in range(8):
            for i in range(8):
                word = self.words[i]
                turned = (word << 7 | word >> 25) % WORD
                self.words[i] = (turned + self.words[(i + 1) % 8] + i) % WORD

    def take(self, n):
        self.words[self.place] = (self.words[self.place] + n) % WORD
        self.place += 1
        if self.place == 4:
            self.mix()
            self.place = 0

    def give(self):
        self.mix()
        self.place = 0
        return self.words[0]


def copy(sponge):
    other = type(sponge)()
    other.__dict__.update({k: v[:] if isinstance(v, list) else v for k, v in sponge.__dict__.items()})
    return other


def passes(sponge, witness, bits):
    other = copy(sponge)
    other.take(witness)
    return bits <= 20 and other.give() % 2 ** bits == 0


def number(n):
    return list(n.to_bytes(8, 'big'))


FIELDS = ['log_ext_degree', 'log_degree', 'main_width', 'preprocessed_width', 'num_periodic_columns', 'num_quotient_chunks',
          'opens_main_next_row', 'opens_preprocessed_next_row']


def codes(shape):
    absent = set()
    if shape['preprocessed_width'] == 0:
        absent.add(2)
    if not shape['has_randomization']:
        absent.add(6)
    if shape['ood_pow_bits'] == 0:
        absent.add(7)
    return [k for k in range(1, 11) if k not in absent]


def seed(shape):
    lengths = {3: shape['num_public_values'], 7: shape['ood_pow_bits'], 9: 0, 10: 0}
    name, steps = b'p3-uni-stark', codes(shape)
    out = [1] + number(len(name)) + list(name) + number(len(steps))
    for k in steps:
        out += [k] + number(lengths.get(k, 1))
    out += number(len(FIELDS))
    for field in FIELDS:
        out += number(int(shape[field]))
    return out


def commit(sponge, c):
    sponge.take(c // WORD)
    sponge.take(c % WORD)


def run(sponge, shape, p, d, trace, preprocessed, public, quotient, random, budget):
    """Alpha, zeta, witness and tries of a prover, over p and d words a challenge."""
    for byte in seed(shape):
        sponge.take(byte)
    commit(sponge, trace)
    if preprocessed is not None:
        commit(sponge, preprocessed)
    for value in public:
        sponge.take(value)
    alpha = [sponge.give() % p for _ in range(d)]
    commit(sponge, quotient)
    if random is not None:
        commit(sponge, random)
    witness = tries = 0
    if shape['ood_pow_bits'] > 0:
        bits = shape['ood_pow_bits']
        found = [w for w in range(min(budget, p)) if passes(sponge, w, bits)]
        if not found:
            return alpha, 'spent', min(budget, p)
        witness, tries = found[0], found[0] + 1
        sponge.take(witness)
        sponge.give()
    zeta = [sponge.give() % p for _ in range(d)]
    return alpha, zeta, witness, tries


def shape(**given):
    base = dict(log_ext_degree=3, log_degree=3, main_width=9, preprocessed_width=0, num_public_values=2, num_periodic_columns=0,
                num_quotient_chunks=2, opens_main_next_row=True, opens_preprocessed_next_row=False, has_randomization=False,
                ood_pow_bits=0)
    base.update(given)
    return base


FULL = shape(log_ext_degree=4, main_width=2, preprocessed_width=1, num_public_values=0, num_periodic_columns=1,
             num_quotient_chunks=4, opens_main_next_row=False, has_randomization=True, ood_pow_bits=5)


def main():
    for kind in (Rolling, Duplex):
        s = kind()
        print(kind.__name__, 'gives from zero', s.give(), s.give(), s.give())
        s = kind()
        for n in (1, 2, 3, 4):
            s.take(n)
        state = s.s if kind is Rolling else s.words[:]
        print(kind.__name__, 'after 1 2 3 4', state, 'gives', s.give(), s.give())
        s = kind()
        for n in (4294967295, 7, 4294967295, 0, 5):
            s.take(n)
        print(kind.__name__, 'after 4294967295 7 4294967295 0 5 gives', s.give())
        s = kind()
        s.take(9)
        print(kind.__name__, 'after 9, the numbers below 40 that pass 3 bits', [w for w in range(40) if passes(s, w, 3)])
    print('seed lengths', len(seed(shape())), len(seed(FULL)))
    for bits in (0, 2):
        print('Rolling run over 17, bits', bits, *run(Rolling(), shape(ood_pow_bits=bits), 17, 1, 1, None, [3, 5], 2, None, 100))
        print('Rolling run over pairs, bits', bits,
              *run(Rolling(), shape(ood_pow_bits=bits), 2013265921, 2, 2 ** 40 + 1, None, [3, 5], 2, None, 100))
    print('Rolling run, ten steps', *run(Rolling(), FULL, 2013265921, 2, 2 ** 40 + 1, 7, [], 2, 9, 100))
    print('Rolling budget 0', *run(Rolling(), shape(ood_pow_bits=2), 17, 1, 1, None, [3, 5], 2, None, 0))
    print('Duplex run over 17', *run(Duplex(), shape(), 17, 1, 1, None, [3, 5], 2, None, 100))
    print('Duplex run over pairs', *run(Duplex(), shape(), 2013265921, 2, 2 ** 40 + 1, None, [3, 5], 2, None, 100))


main()
