"""Seals of POET v2.0 by the equations, apart from the crates: what the tests expect.

It shares no code with the crates. AES-128 is written from FIPS 197 with a substitution table
that is computed from the field's rule, Speck128/128 from its equations; the suites are written
from the definitions in docs/FORMAT.md and the POET v2.0 submission. Run it, with Python 3 alone, to
print the values that stand in `chains.rt` and `edges.rt` of `crates/trials/src`, and in
`crates/speck_trials/src/lib.rt`:

    python3 tools/seals.py
"""


def times(a, b):
    """The product in the field of FIPS 197."""
    product = 0
    while b:
        if b & 1:
            product ^= a
        a = (a << 1) ^ (0x11B if a & 0x80 else 0)
        b >>= 1
    return product


def substituted(x):
    inverse = next((y for y in range(256) if times(x, y) == 1), 0)
    bits = 0x63
    for turn in range(5):
        bits ^= (inverse << turn | inverse >> (8 - turn)) & 0xFF
    return bits


SBOX = [substituted(x) for x in range(256)]
UNSBOX = [SBOX.index(x) for x in range(256)]
TIMES = {c: [times(c, x) for x in range(256)] for c in (2, 3, 9, 11, 13, 14)}


def xor(a, b):
    return bytes(x ^ y for x, y in zip(a, b))


class Aes:
    """AES-128 under a key, with ten rounds or with the first four, which then are all whole."""

    def __init__(self, key, rounds=10):
        self.rounds = rounds
        words = [key[4 * i : 4 * i + 4] for i in range(4)]
        constant = 1
        for i in range(4, 44):
            word = words[-1]
            if i % 4 == 0:
                word = bytes(SBOX[x] for x in word[1:] + word[:1])
                word = bytes([word[0] ^ constant]) + word[1:]
                constant = times(constant, 2)
            words.append(xor(words[-4], word))
        self.keys = [b"".join(words[4 * i : 4 * i + 4]) for i in range(11)]

    def encrypt(self, block):
        state = xor(block, self.keys[0])
        for i in range(1, self.rounds + 1):
            state = bytes(SBOX[state[(k + 4 * (k % 4)) % 16]] for k in range(16))
            if i < 10:
                state = mixed(state, (2, 3, 1, 1))
            state = xor(state, self.keys[i])
        return state

    def decrypt(self, block):
        state = block
        for i in range(self.rounds, 0, -1):
            state = xor(state, self.keys[i])
            if i < 10:
                state = mixed(state, (14, 11, 13, 9))
            state = bytes(UNSBOX[state[(k - 4 * (k % 4)) % 16]] for k in range(16))
        return xor(state, self.keys[0])


def mixed(state, row):
    out = bytearray(16)
    for k in range(16):
        for j in range(4):
            c = row[(j - k % 4) % 4]
            x = state[k - k % 4 + j]
            out[k] ^= x if c == 1 else TIMES[c][x]
    return bytes(out)


class Identity:
    def encrypt(self, block):
        return block


class Reversal:
    def encrypt(self, block):
        return block[::-1]

    decrypt = encrypt


WORD = (1 << 64) - 1


class Speck:
    """Speck128/128 under a key."""

    def __init__(self, key):
        l, k = self.words(key)
        self.keys = []
        for i in range(32):
            self.keys.append(k)
            l = ((l >> 8 | l << 56 & WORD) + k & WORD) ^ i
            k = (k << 3 & WORD | k >> 61) ^ l

    @staticmethod
    def words(block):
        return int.from_bytes(block[:8], "big"), int.from_bytes(block[8:], "big")

    @staticmethod
    def round(x, y, key):
        x = ((x >> 8 | x << 56 & WORD) + y & WORD) ^ key
        return x, (y << 3 & WORD | y >> 61) ^ x

    def encrypt(self, block):
        x, y = self.words(block)
        for key in self.keys:
            x, y = self.round(x, y, key)
        return x.to_bytes(8, "big") + y.to_bytes(8, "big")

    def decrypt(self, block):
        x, y = self.words(block)
        for key in reversed(self.keys):
            y ^= x
            y = y >> 3 | y << 61 & WORD
            x = (x ^ key) - y & WORD
            x = x << 8 & WORD | x >> 56
        return x.to_bytes(8, "big") + y.to_bytes(8, "big")


def big(n):
    return n.to_bytes(16, "big")


def coded(n):
    return big(n) if n < 8 else n.to_bytes(16, "little")


def padded(header):
    return header + b"\x80" + bytes(15 - len(header) % 16)


def filled(header):
    return header if header and len(header) % 16 == 0 else padded(header)


def blocks(data):
    return [data[i : i + 16] for i in range(0, len(data), 16)]


def double(block):
    """Times x, in the order of bits of NIST's GCM: as one big-endian number, one bit to the right."""
    n = int.from_bytes(block, "big")
    return big(n >> 1 ^ (0xE1 << 120 if n & 1 else 0))


class Suite:
    """The suite with a number under a key: self.e, self.f, self.number, self.digest."""

    def __init__(self, number, key):
        cipher = Speck if number == 6 else Aes
        delivered = cipher(key)
        self.number = big
        self.fill = padded if number in (5, 6) else filled
        self.digest = self.chained
        if number == 4:
            self.e, self.f = Reversal(), Identity()
        elif number in (1, 5, 6):
            self.e = cipher(delivered.encrypt(big(1)))
            self.f = cipher(delivered.encrypt(big(2)))
        else:
            self.e = Aes(delivered.encrypt(big(0)))
            self.mask = delivered.encrypt(big(1))
            self.f = Aes(delivered.encrypt(big(2)), 4 if number == 2 else 10)
            self.number = coded
            self.digest = self.masked

    def chained(self, header):
        x = y = big(1)
        for block in blocks(self.fill(header)):
            x = xor(self.f.encrypt(x), block)
            before, y = y, self.e.encrypt(x)
        return xor(self.f.encrypt(before), y)

    def masked(self, header):
        total, mask = bytes(16), self.mask
        for block in blocks(padded(bytes(16) + header)):
            total = xor(total, self.e.encrypt(xor(block, mask)))
            mask = double(mask)
        return self.e.encrypt(total)

    def seal(self, header, message):
        """The ciphertext and the tag."""
        e, f = self.e.encrypt, self.f.encrypt
        tau = self.digest(header)
        x, y = tau, xor(tau, self.number(1))
        size = e(self.number(8 * len(message)))
        *front, last = blocks(message)
        r = len(last)
        ciphertext = b""
        for block in front:
            x = xor(f(x), block)
            before, y = y, e(x)
            ciphertext += xor(f(before), y)
        x = xor(xor(f(x), last + tau[: 16 - r]), size)
        before, y = y, e(x)
        whole = xor(xor(f(before), y), size)
        z = xor(xor(f(y), e(xor(f(x), tau))), tau)
        return ciphertext + whole[:r], whole[r:] + z[:r]


def chain(number, cases, key=bytes(range(16))):
    """Seals one after another: the next key is the tag, to which the ciphertext is added."""
    for header, message in cases:
        ciphertext, key = Suite(number, key).seal(header, message)
        for block in blocks(ciphertext):
            key = xor(key, block.ljust(16, b"\0"))
    return key


def pattern(length, factor, start):
    return bytes((factor * i + start) % 256 for i in range(length))


def short():
    """Messages of 1 to 100 bytes, under headers of 0 to 66."""
    for n in range(1, 101):
        yield pattern(5 * n % 67, 7, n), pattern(n, 11, 3 * n)


HEADERS = [0, 1, 15, 16, 17, 31, 32, 33, 47, 48, 49, 255, 256, 257]
MESSAGES = [size + near for size in (2048, 4096, 16384) for near in (-1, 0, 1)]


def headers():
    """One message under headers about the ends of blocks."""
    for n in HEADERS:
        yield pattern(n, 7, n), pattern(21, 11, n)


def long():
    """Messages about the ends of blocks, far from their first."""
    for n in MESSAGES:
        yield b"", pattern(n, 11, n)


def longest():
    """A message as long as any may be."""
    yield b"", pattern(1 << 20, 11, 0)


FIPS_KEY = bytes(range(16))
FIPS_BLOCK = bytes(17 * i for i in range(16))

SPECK_KEY = bytes(reversed(range(16)))
SPECK_BLOCK = b"laviuqe ti edam "


def growing_ones():
    """The blocks whose first bit is 1, whose first two are, and so on to all."""
    for n in range(1, 129):
        yield big((1 << 128) - (1 << 128 - n))


def total(blocks):
    """The exclusive or of all the blocks."""
    result = bytes(16)
    for block in blocks:
        result = xor(result, block)
    return result


def speck_chain(times):
    """The next block is the last one enciphered, which is added to the key for the next key."""
    key, block = SPECK_KEY, SPECK_BLOCK
    for _ in range(times):
        block = Speck(key).encrypt(block)
        key = xor(key, block)
    return block

if __name__ == "__main__":
    sealed = Aes(FIPS_KEY).encrypt(FIPS_BLOCK)
    assert sealed.hex() == "69c4e0d86a7b0430d8cdb78070b4c55a", "the example of FIPS 197"
    assert Aes(FIPS_KEY).decrypt(sealed) == FIPS_BLOCK
    sealed = Speck(SPECK_KEY).encrypt(SPECK_BLOCK)
    assert sealed.hex() == "a65d9851797832657860fedf5c570d18", "the designers' vector"
    assert Speck(SPECK_KEY).decrypt(sealed) == SPECK_BLOCK
    zeros = bytes(16)
    print("speck texts", total(map(Speck(zeros).encrypt, growing_ones())).hex())
    print("speck keys", total(Speck(key).encrypt(zeros) for key in growing_ones()).hex())
    print("speck chain", speck_chain(1000).hex())
    for cases in (short, headers, long, longest):
        for number in (1, 2, 3, 5, 6):
            print(cases.__name__, number, chain(number, cases()).hex())
