#!/usr/bin/env python3
"""repaired.py PROGRAM [SEED]: runs the program repair_block and compares what it prints with what is worked out here, from document 01 and request
[11] alone; the outside judge of the crates repair and repair_block.

A block is read as document 01 reads it, whatever its link count: the four fixed links always, the references past them, the eight bytes of fields, the
range exactly where the block length reaches 24 + 8 * links + 8 + 8 * values + 16 with the links as written, and the values. The writer's form of it has
the same bytes from byte 24 on, behind a header with zero reserved bytes, the length of what was read, and no fewer than four links.
"""
import random
import subprocess
import sys

MOST = 30_000
RANDOM = 1_500
RUN = sys.path[0] + '/run'
NANS = [0x7FF0000000000001, 0x7FF8000000000000, 0x7FFFFFFFFFFFFFFF, 0xFFF0000000000001, 0xFFF8000000001234]


def number(data, at, size):
    return int.from_bytes(data[at : at + size], 'little')


def bytes_of(value, size):
    return (value % (1 << 8 * size)).to_bytes(size, 'little')


def repaired(data):
    """What is printed for an input."""
    if len(data) > MOST:
        return b'bad input\n'
    if len(data) < 24:
        return b'refused 1\n'
    if data[:4] != b'##CC':
        return b'refused 2\n'
    length, links = number(data, 8, 8), number(data, 16, 8)
    references = max(links - 4, 0)
    fields = 24 + 8 * (4 + references)
    if fields + 8 > len(data):
        return b'refused 4\n'
    values = number(data, fields + 6, 2)
    ranged = length >= 24 + 8 * links + 8 + 8 * values + 16
    end = fields + 8 + (16 if ranged else 0) + 8 * values
    if end > len(data):
        return b'refused 4\n'
    return b'##CC' + bytes(4) + bytes_of(end, 8) + bytes_of(4 + references, 8) + data[24:end]


def block(links, words, count=None, length=None, kind=1, stored=0, reserved=0, ident=b'##CC'):
    """A block with this link count, its references and these words behind the fields, of which `count` are values."""
    references = max(links - 4, 0)
    count = len(words) if count is None else count
    if length is None:
        length = 24 + 8 * links + 8 + 8 * count
    fixed = b''.join(bytes_of(101 + i, 8) for i in range(4))
    more = b''.join(bytes_of(1000 + i, 8) for i in range(min(references, 5000)))
    fields = bytes([kind, 3]) + bytes_of(2, 2) + bytes_of(stored, 2) + bytes_of(count, 2)
    return ident + bytes_of(reserved, 4) + bytes_of(length, 8) + bytes_of(links, 8) + fixed + more + fields + b''.join(bytes_of(w, 8) for w in words)


def chosen():
    """Inputs by name."""
    words = [0x3FF0000000000000, NANS[1], NANS[0], NANS[4]]
    for links in range(11):
        needed = 24 + 8 * links + 8 + 8 * 2 + 16
        yield f'{links} links', block(links, words)
        yield f'{links} links, no values', block(links, [])
        yield f'{links} links, a range by the links as written', block(links, words, 2, needed)
        yield f'{links} links, a length one below that', block(links, words, 2, needed - 1)
        yield f'{links} links, the largest length', block(links, words, 2, (1 << 64) - 1)
        yield f'{links} links, no length', block(links, words, 2, 0)
        yield f'{links} links, reserved bytes and stored count', block(links, words, stored=65_535, reserved=0xFFFFFFFF)
        yield f'{links} links, bytes behind', block(links, words) + b'more'
        yield f'{links} links, one byte short', block(links, words)[:-1]
        yield f'{links} links, another id', block(links, words, ident=b'##CD')
        yield f'{links} links, another type', block(links, words, kind=255)
    for links in ((1 << 60) - 1, 1 << 61, (1 << 61) + 4, 1 << 63, (1 << 64) - 1):
        yield f'{links} links', block(4, words)[:16] + bytes_of(links, 8) + block(4, words)[24:]
    for links in (0, 3, 4, 10):
        whole = block(links, [7] * ((MOST - 64) // 8 - max(links - 4, 0)))
        yield f'{links} links, {len(whole)} bytes', whole
        yield f'{links} links, a block that needs {MOST + 8} bytes', block(links, [7] * (MOST // 8 - 7 - max(links - 4, 0)))
        yield f'{links} links, {MOST} bytes', block(links, words) + bytes(MOST - len(block(links, words)))
        yield f'{links} links, {MOST + 1} bytes', block(links, words) + bytes(MOST + 1 - len(block(links, words)))
        yield f'{links} links, 65,536 bytes', block(links, words) + bytes(65_536 - len(block(links, words)))
        yield f'{links} links, 200,000 bytes', block(links, words) + bytes(200_000 - len(block(links, words)))
    yield f'{MOST} bytes that are no block', bytes(MOST)
    yield f'{MOST + 1} bytes that are no block', bytes(MOST + 1)
    for size in (0, 1, 3, 4, 22, 23, 24, 63, 64):
        yield f'{size} bytes', block(2, [])[:size]
        yield f'{size} zero bytes', bytes(size)


def drawn(draw):
    """An input that was drawn: a block, perhaps cut off, longer, or with a byte changed."""
    words = [draw.choice(NANS) if draw.random() < 0.3 else draw.getrandbits(64) for _ in range(draw.randrange(12))]
    links = draw.randrange(8)
    least = 24 + 8 * links + 8 + 8 * len(words)
    data = block(links, words, draw.randrange(len(words) + 2), least + draw.randrange(-20, 30), draw.randrange(256), draw.randrange(65_536))
    if draw.random() < 0.3:
        data = data[: draw.randrange(len(data) + 1)]
    if draw.random() < 0.3:
        data += draw.randbytes(draw.randrange(40))
    if data and draw.random() < 0.3:
        at = draw.randrange(len(data))
        data = data[:at] + bytes([draw.randrange(256)]) + data[at + 1 :]
    return data


def main():
    program = sys.argv[1]
    draw = random.Random(int(sys.argv[2]) if len(sys.argv) > 2 else 1)
    cases = [(name, data, repaired(data)) for name, data in chosen()]
    for i in range(RANDOM):
        data = drawn(draw)
        cases.append((f'drawn {i}', data, repaired(data)))
    # What was repaired is in the writer's form: it comes back as it is.
    cases += [(f'{name}, repaired', new, new) for name, _, new in cases if new.startswith(b'##CC')]
    wrong = blocks = 0
    for name, data, expected in cases:
        said = subprocess.run([RUN, program], input=data, stdout=subprocess.PIPE, check=True).stdout
        blocks += said.startswith(b'##CC')
        if said != expected:
            wrong += 1
            print(f'repair: {name}: printed {said[:40]!r}, expected {expected[:40]!r}')
    print(f'repair: {len(cases)} inputs, {blocks} of them blocks that were written, {wrong} wrong')
    sys.exit(1 if wrong else 0)


if __name__ == '__main__':
    main()
