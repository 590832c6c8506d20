"""The words of ChaCha20, written from its definition, for `host_model.py`."""
import struct

# The words that each block begins with: "expand 32-byte k".
CONSTANTS = struct.unpack("<4I", b"expand 32-byte k")

# Columns, then diagonals, of a block of four rows of four words.
QUARTERS = [
    (0, 4, 8, 12), (1, 5, 9, 13), (2, 6, 10, 14), (3, 7, 11, 15),
    (0, 5, 10, 15), (1, 6, 11, 12), (2, 7, 8, 13), (3, 4, 9, 14)]

WORD = (1 << 32) - 1
WORDS = 16

# The first words of key 0 in stream 0 and in stream 1, as they were published.
KNOWN = {0: "76b8e0ada0f13d90405d6ae55386bd28", 1: "ef3fdfd6c61578fbf5cf35bd3dd33b80"}


def rotated(word, count):
    """A word of 32 bits, rotated to the left."""
    return (word << count | word >> 32 - count) & WORD


def quarter_round(words, a, b, c, d):
    """Mixes four words of a block."""
    for into, other, turned, count in [(a, b, d, 16), (c, d, b, 12), (a, b, d, 8), (c, d, b, 7)]:
        words[into] = words[into] + words[other] & WORD
        words[turned] = rotated(words[turned] ^ words[into], count)


def block(key, stream, number):
    """The 16 words of a block. Its number and its stream have two words each, the low one first."""
    places = struct.unpack("<4I", struct.pack("<QQ", number, stream))
    begin = [*CONSTANTS, *struct.unpack("<8I", key), *places]
    words = list(begin)
    for _ in range(10):
        for quarter in QUARTERS:
            quarter_round(words, *quarter)
    return [word + other & WORD for word, other in zip(words, begin)]


def taken(key, stream, place, length):
    """So many bytes from the word of a place on. What the last word has over is dropped."""
    numbers = range(place // WORDS, (place + (length + 3) // 4) // WORDS + 1)
    words = [word for number in numbers for word in block(key, stream, number)]
    data = b"".join(struct.pack("<I", word) for word in words[place % WORDS :])
    return data[:length]


for known, text in KNOWN.items():
    found = taken(bytes(32), known, 0, len(text) // 2).hex()
    assert found == text, f"stream {known} begins with {found}"
