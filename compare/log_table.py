"""Answers of a table of logs over leaves, worked out from the rules over plain lists of ids.

A leaf lists its ids in rising order, each with the score 1.0. A set stands at the first id of what is still listed,
or at 2147483647 where nothing is. This script knows nothing of how a set is kept; it only cuts lists.

usage: log_table.py < table > answers
"""
import struct
import sys

NO_ID = 2147483647
BLANK = 4294967295
BLOCK = 64


def ids_of_words(words):
    return [64 * w + bit for w, word in enumerate(words) for bit in range(64) if word >> bit & 1]


def leaf(text):
    """The ids of a leaf, and why it is refused, if it is: a refused leaf lists nothing."""
    kind, *rest = text.split()
    if kind == "v":
        ids = [int(x) for x in rest]
        for place, x in enumerate(ids):
            if x >= NO_ID:
                return [], f"refused 2 at {place}"
        for place in range(1, len(ids)):
            if ids[place] <= ids[place - 1]:
                return [], f"refused 1 at {place}"
        return ids, None
    size = int(rest[0])
    if size > NO_ID:
        return [], "refused 3"
    if kind == "a":
        return range(size), None
    words = [int(x, 16) for x in rest[1:]]
    if len(words) != -(-size // 64):
        return [], "refused 4"
    ids = ids_of_words(words)
    if any(x >= size for x in ids):
        return [], "refused 5"
    return ids, None


def from_target(ids, target):
    if isinstance(ids, range):
        return range(max(ids.start, min(target, ids.stop)), ids.stop)
    return [x for x in ids if x >= target]


def runs(values):
    out = []
    for x in values:
        if out and out[-1][0] == x:
            out[-1][1] += 1
        else:
            out.append([x, 1])
    return "".join(f" {x}*{n}" for x, n in out)


def bits(score):
    return struct.pack(">f", score).hex()


def answers(line):
    text, calls = line.split(";")
    ids, refusal = leaf(text)
    out = [refusal] if refusal else []
    words = calls.split()
    at = 0
    astray = False
    while at < len(words):
        call = words[at]
        at += 1
        assert call == "p" or not astray, "after a probe that missed only probes are promised, until one finds"
        if call == "d":
            out.append(str(ids[0] if len(ids) else NO_ID))
        elif call == "s":
            out.append("score " + bits(1.0 if len(ids) else 0.0))
        elif call == "a":
            ids = ids[1:]
            out.append(str(ids[0] if len(ids) else NO_ID))
        elif call == "k":
            ids = from_target(ids, int(words[at]))
            at += 1
            out.append(str(ids[0] if len(ids) else NO_ID))
        elif call == "p":
            target = int(words[at])
            at += 1
            astray = target not in ids
            out.append("miss" if astray else "hit")
            if target < NO_ID:
                ids = from_target(ids, target)
        elif call == "f":
            block = list(ids[:BLOCK])
            ids = ids[BLOCK:]
            out.append(f"block of {len(block)}:" + runs(block + [BLANK] * (BLOCK - len(block))))
        elif call == "n":
            assert at == len(words)
            out.append(f"count {len(ids)}")
        elif call == "c":
            alive = set(ids_of_words([int(x, 16) for x in words[at:]]))
            at = len(words)
            out.append(f"count {sum(1 for x in ids if x in alive)}")
        else:
            raise ValueError(call)
    return ", ".join(out + ["end"])


for line in sys.stdin:
    line = line.rstrip("\n")
    if line and not line.startswith("#"):
        print(answers(line))
