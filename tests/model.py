#!/usr/bin/env python3
"""What the program has to print for a feed, computed from document 01 alone, and the cases in tests/feeds.

model.py write    writes the cases, and the outputs of examples/*.feed, anew
model.py run      prints the lines of the feed on standard input
model.py many N   writes a feed of N updates of 13-byte keys on 4 rows of 4,096 slots
"""

import pathlib
import random
import sys

# The meter. A group holds its counters by their first slot, as (level, figure); a slot in none is a counter of level 0 holding 0.


def slot(row, key, w):
    h = 2166136261
    for byte in bytes([row]) + key:
        h = (h ^ byte) * 16777619 % 2**32
    return h // (2**32 // w)


def counter(counters, s):
    for level in (3, 2, 1):
        first = s - s % 2**level
        if counters.get(first, (0, 0))[0] == level:
            return first, level, counters[first][1]
    return s, 0, counters.get(s, (0, 0))[1]


def add(counters, s, amount):
    """The counters after an addition, or None if a counter of level 3 would reach 2^64."""
    counters = dict(counters)
    first, level, figure = counter(counters, s)
    figure += amount
    while figure >= 2 ** (8 * 2**level):
        if level == 3:
            return None
        size = 2**level
        block = first // size
        sibling = (block + 1 - 2 * (block % 2)) * size
        for i in range(sibling, sibling + size):
            figure += counters.pop(i, (0, 0))[1]
        counters.pop(first, None)
        first = min(first, sibling)
        level += 1
    counters[first] = (level, figure)
    return counters


class Meter:
    def __init__(self, d, w):
        self.w = w
        # the groups of each row by number; a group that is not there is clear
        self.rows = [{} for _ in range(d)]

    def places(self, key):
        for r, row in enumerate(self.rows):
            s = slot(r, key, self.w)
            yield row, s // 8, s % 8

    def update(self, key, amount):
        new = [(row, g, add(row.get(g, {}), s, amount)) for row, g, s in self.places(key)]
        if any(counters is None for _, _, counters in new):
            return False
        for row, g, counters in new:
            row[g] = counters
        return True

    def estimate(self, key):
        return min(counter(row.get(g, {}), s)[2] for row, g, s in self.places(key))


# The program.


class Stopped(Exception):
    pass


def run(feed):
    """The program's lines."""
    lines = []
    try:
        carry_out(feed, lines)
    except Stopped as stop:
        lines.append("stopped %d at %d" % stop.args)
    return "".join(line + "\n" for line in lines)


def carry_out(feed, lines):
    words = [int.from_bytes(feed[i : i + 4], "big") for i in range(0, len(feed) - 3, 4)]

    def due(i, *kinds):
        if i >= len(words) or words[i] >> 28 not in kinds:
            raise Stopped(8, i)
        return words[i] >> 28, words[i] % 2**28

    def require(holds, number, i):
        if not holds:
            raise Stopped(number, i)

    _, payload = due(0, 1)
    require(payload < 2**9, 9, 0)
    d, log = payload % 16, payload // 16
    require(1 <= d <= 8, 1, 0)
    require(5 <= log <= 14, 2, 0)
    require(2**log <= 4096, 3, 0)
    lines.append("geometry %d %d" % (d, 2**log))
    meter = Meter(d, 2**log)
    i = 1
    records = 0
    while True:
        kind, payload = due(i, 4, 5, 6)
        if kind == 4:
            require(payload == i % 2**28, 9, i)
            lines.append("end %d" % records)
            if len(feed) > 4 * (i + 1):
                raise Stopped(8, i + 1)
            return
        require(1 <= payload <= 64, 4, i)
        i += 1
        key = b""
        while len(key) < payload:
            part = due(i, 7)[1]
            used = min(3, payload - len(key))
            require(part < 2**24 and part % 256 ** (3 - used) == 0, 9, i)
            key += part.to_bytes(3, "big")[:used]
            i += 1
        if kind == 6:
            lines.append("estimate %d" % meter.estimate(key))
        else:
            amount = 0
            for _ in range(2):
                part = due(i, 8)[1]
                require(part < 2**16, 9, i)
                amount = amount * 2**16 + part
                i += 1
            lines.append("updated" if meter.update(key, amount) else "refused 6")
        records += 1


# Feeds, as lists of words.


def word(kind, payload):
    return kind << 28 | payload


def head(d, w):
    return [word(1, d + 16 * (w.bit_length() - 1))]


def key_words(key):
    return [word(7, int.from_bytes(key[i : i + 3].ljust(3, b"\0"), "big")) for i in range(0, len(key), 3)]


def update(key, amount):
    return [word(5, len(key))] + key_words(key) + [word(8, amount >> 16), word(8, amount % 2**16)]


def ask(key):
    return [word(6, len(key))] + key_words(key)


def ended(words):
    return words + [word(4, len(words))]


def to_bytes(words):
    return b"".join(w.to_bytes(4, "big") for w in words)


def replaced(words, i, w):
    return words[:i] + [w] + words[i + 1 :]


def key_at(s):
    """A key that lands in a slot of row 0, of 32."""
    return next(key for key in (b"k%d" % i for i in range(10000)) if slot(0, key, 32) == s)


def cases():
    """Each case's name and bytes."""
    start = head(2, 64)
    seven = b"1234567"  # a key of three words, two bytes of the last unused
    first = start + update(b"AB", 7) + ask(b"AB")  # 7 words
    whole = ended(first)

    yield "listing", to_bytes(ended(head(1, 32) + update(b"A", 300) + ask(b"A")))
    yield "no_records", to_bytes(ended(start))
    yield "unknown_key", to_bytes(ended(start + ask(b"never")))

    # the head
    for n in range(4):
        yield "input_of_%d_bytes" % n, to_bytes(start)[:n]
    yield "head_alone", to_bytes(start)
    for n in (1, 2, 3):
        yield "head_and_%d_bytes" % n, to_bytes(ended(start))[: 4 + n]
    for kind in [0] + list(range(2, 16)):
        yield "head_kind_%d" % kind, to_bytes([word(kind, start[0] % 2**28)] + whole[1:])
    for d in (0, 9, 15):
        yield "head_d_%d" % d, to_bytes([word(1, d + 16 * 6)] + whole[1:])
    for log in (0, 4, 15, 16, 17, 31):
        yield "head_log_%d" % log, to_bytes([word(1, 2 + 16 * log)] + whole[1:])
    for bit in range(9, 28):
        yield "head_bit_%d" % bit, to_bytes([start[0] | 1 << bit] + whole[1:])
    yield "head_1_before_2", to_bytes([word(1, 0)])
    yield "head_9_before_1", to_bytes([word(1, 2**27)])
    yield "head_8_before_9", to_bytes([word(2, 2**28 - 1)])
    yield "head_1_before_3", to_bytes(ended(head(9, 8192)))
    for d in (1, 8):
        for w in (8192, 16384):
            yield "head_d_%d_w_%d" % (d, w), to_bytes(ended(head(d, w) + update(b"A", 1)))
        for w in (32, 4096):
            yield "head_d_%d_w_%d" % (d, w), to_bytes(ended(head(d, w) + update(b"A", 1) + ask(b"A")))

    # a record's first word
    for kind in (0, 1, 2, 3, *range(7, 16)):
        yield "first_word_kind_%d" % kind, to_bytes(ended(first + [word(kind, 1)]))
    yield "second_head", to_bytes(first + whole)
    for name, kind in (("update", 5), ("ask", 6)):
        for n in (0, 65, 257, 2**27 + 1, 2**28 - 1):
            yield "%s_key_length_%d" % (name, n), to_bytes(ended(first + [word(kind, n)]))
        yield "%s_key_length_65_of_65_bytes" % name, to_bytes(
            ended(first + {5: update(b"k" * 65, 1), 6: ask(b"k" * 65)}[kind])
        )

    # a record's other words, each missing, of a wrong kind and with bits that have to be 0
    for name, record in (("update", update(seven, 70000)), ("ask", ask(seven))):
        for n in range(len(record)):
            yield "%s_%d_words" % (name, n), to_bytes(first + record[:n])
            extra = 1 + n % 3
            yield "%s_%d_words_%d_bytes" % (name, n, extra), to_bytes(first + record)[: 4 * (len(first) + n) + extra]
            yield "%s_%d_words_then_end" % (name, n), to_bytes(ended(first + record[:n]))
        for n in range(1, len(record)):
            for kind in (4, 5, 7, 8):
                if kind != record[n] >> 28:
                    bad = word(kind, 2**28 - 1)  # 8 comes before 9
                    yield "%s_word_%d_kind_%d" % (name, n, kind), to_bytes(ended(first + replaced(record, n, bad)))
            if record[n] >> 28 == 8:
                bits = (16, 23, 27)
            else:
                bits = (24, 25, 26, 27) if n < 3 else (0, 7, 8, 15, 24, 27)
            for bit in bits:
                bad = record[n] | 1 << bit
                yield "%s_word_%d_bit_%d" % (name, n, bit), to_bytes(ended(first + replaced(record, n, bad)))
    two = ask(b"AB")
    yield "key_of_2_unused_byte", to_bytes(ended(first + replaced(two, 1, two[1] | 1)))
    last = ask(bytes(range(64)))
    yield "key_of_64_unused_byte", to_bytes(ended(first + replaced(last, 22, last[22] | 1 << 15)))
    yield "key_of_64_cut", to_bytes(first + last[:-1])
    double = replaced(replaced(update(seven, 1), 1, word(7, 2**24)), 4, word(9, 0))
    yield "first_fault_decides", to_bytes(ended(first + double))
    yield "fault_before_missing_word", to_bytes(first + double[:2])

    # the end
    for n in (0, 6, 8, 2**27 + 7, 2**28 - 1):
        yield "end_number_%d" % n, to_bytes(first + [word(4, n)])
    yield "end_number_wrong_and_more", to_bytes(first + [word(4, 6)] + whole)
    for n in (1, 2, 3, 4, 7, 100, 70000):
        yield "end_and_%d_bytes" % n, to_bytes(whole) + bytes(n)
    yield "end_twice", to_bytes(whole + [word(4, 8)])
    yield "end_and_record", to_bytes(whole + ask(b"AB"))
    yield "end_missing", to_bytes(first)
    for n in (1, 2, 3):
        yield "end_missing_%d_bytes" % n, to_bytes(first) + to_bytes([word(4, 7)])[:n]

    # keys and amounts
    for n in (1, 2, 3, 4, 5, 6, 63, 64):
        key = bytes(255 - i for i in range(n))
        yield "key_of_%d_bytes" % n, to_bytes(ended(head(3, 128) + update(key, n) + ask(key) + ask(key[:-1] + b"?")))
    zeros = head(1, 4096)
    for n in range(1, 5):
        zeros += update(bytes(n), n)
    for n in range(1, 5):
        zeros += ask(bytes(n))
    yield "keys_of_zero_bytes", to_bytes(ended(zeros))
    for amount in (0, 1, 255, 256, 65535, 65536, 2**31, 2**32 - 1):
        yield "amount_%d" % amount, to_bytes(ended(start + update(b"A", amount) + ask(b"A")))

    # counters that widen, and that share a group
    grown = head(1, 32)
    for amount in (255, 0, 1, 65279, 1, 2**32 - 65537, 1, 2**32 - 1, 2**32 - 1, 5):
        grown += update(b"A", amount) + ask(b"A")
    yield "one_key_through_all_levels", to_bytes(ended(grown))
    for level in range(3):
        limit = 2 ** (8 * 2**level)
        for name, s, other in (("right", 0, 2**level), ("left", 7, 7 - 2**level)):
            key, beside = key_at(s), key_at(other)
            words = head(1, 32) + update(beside, 5) + update(key, limit - 1) + ask(key) + ask(beside)
            words += update(key, 1) + ask(key) + ask(beside)
            yield "sibling_%s_of_level_%d" % (name, level), to_bytes(ended(words))
    draw = random.Random(1)
    for d, w, keys, top in ((1, 32, 9, 8), (1, 32, 40, 32), (2, 32, 60, 20), (4, 64, 200, 32), (8, 4096, 300, 32)):
        words = head(d, w)
        names = [b"k%d" % i for i in range(keys)]
        for _ in range(4 * keys):
            words += update(draw.choice(names), draw.randrange(2 ** draw.randrange(top + 1)))
            words += ask(draw.choice(names))
        for name in names:
            words += ask(name)
        yield "mixed_%d_keys_d_%d_w_%d" % (keys, d, w), to_bytes(ended(words))

    # more input and output than any buffer of 65,536 bytes holds; records of every length, so that they cross a buffer's end
    names = [bytes(draw.randrange(256) for _ in range(draw.randrange(1, 65))) for _ in range(300)]
    records = []
    for i in range(5400):
        key = draw.choice(names)
        records.append(ask(key) if i % 6 else update(key, draw.randrange(2 ** draw.randrange(33))))
    long = [sum(records[:n], head(4, 4096)) for n in (len(records), 1700, 1900)]
    yield "long", to_bytes(ended(long[0]))
    yield "long_with_fault", to_bytes(ended(long[1] + replaced(update(seven, 1), 5, word(8, 2**16))))
    yield "long_cut", to_bytes(long[2] + update(seven, 1))[:-1]
    yield "long_of_short_records", to_bytes(ended(head(1, 32) + 9000 * ask(b"A")))
    exact = to_bytes(ended(head(1, 32) + 712 * ask(bytes(64)) + 3 * ask(b"A")))
    assert len(exact) == 65536
    yield "65536_bytes", exact
    yield "65536_bytes_and_1", exact + b"\0"
    yield "65536_bytes_less_1", exact[:-1]


def many(n):
    """n updates of 13-byte keys, as of a flow's two addresses, two ports and protocol."""
    draw = random.Random(1)
    words = head(4, 4096)
    for _ in range(n):
        words += update(draw.randrange(20000).to_bytes(13, "big"), draw.randrange(64, 1501))
    return to_bytes(ended(words))


def write():
    here = pathlib.Path(__file__).parent
    feeds = here / "feeds"
    feeds.mkdir(exist_ok=True)
    for old in feeds.iterdir():
        old.unlink()
    for name, feed in cases():
        if len(feed) > 4096:
            (feeds / (name + ".feed")).write_bytes(feed)
        else:
            digits = feed.hex()
            text = "".join(digits[i : i + 8] + "\n" for i in range(0, len(digits), 8))
            (feeds / (name + ".hex")).write_text(text)
        (feeds / (name + ".out")).write_text(run(feed))
    for example in (here.parent / "examples").glob("*.feed"):
        example.with_suffix(".out").write_text(run(example.read_bytes()))


if sys.argv[1:] == ["write"]:
    write()
elif sys.argv[1:] == ["run"]:
    sys.stdout.write(run(sys.stdin.buffer.read()))
elif sys.argv[1:2] == ["many"] and len(sys.argv) == 3:
    sys.stdout.buffer.write(many(int(sys.argv[2])))
else:
    sys.exit(__doc__)
