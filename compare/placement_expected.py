#!/usr/bin/env python3
"""What the program placement prints for a card, worked out from the rules of the card alone.
usage: placement_expected.py NAME < card   (NAME is what the program was given as its argument)"""
import re, struct, sys

TERMINATED = 2147483647
name = sys.argv[1]
out = []


def stop(line, text):
    out.append(f"{name}, line {line}: {text}")
    print("\n".join(out))
    sys.exit(1)


def number(field, line):
    if not re.fullmatch(r"[0-9]+", field) or int(field) > 4294967295:
        stop(line, "not a whole number from 0 to 4294967295")
    return int(field)


def check(ids, line):
    for place, i in enumerate(ids):
        if i >= TERMINATED:
            stop(line, f"the id at place {place} is larger than 2147483646 (rule 2)")
    for place in range(1, len(ids)):
        if ids[place] <= ids[place - 1]:
            stop(line, f"the id at place {place} is not above the one before it (rule 1)")


topics, bonus, seen, seen_line, said, pick = [], None, [], 0, set(), 10
lines = sys.stdin.read().split("\n")
if lines and lines[-1] == "":
    lines.pop()
for n, text in enumerate(lines, 1):
    head, colon, tail = text.partition(":")
    fields = [f for f in head.split(" ") if f]
    if not fields and not colon or fields and fields[0].startswith("#"):
        continue
    word = fields[0] if fields else ""
    if word not in ("topic", "bonus", "seen", "pick", "at-least"):
        stop(n, "a line begins with topic, bonus, seen, pick or at-least")
    form = "a part is missing, or there is one too many"
    if word in ("topic", "bonus"):
        if not colon or len(fields) < 2:
            stop(n, form)
        if not re.fullmatch(r"[A-Za-z0-9_-]+", fields[1]):
            stop(n, "a name has letters, digits, - and _ only")
        if len(fields) > 3:
            stop(n, form)
        if len(fields) == 3:
            m = re.fullmatch(r"([0-9]+)(?:\.([0-9]{1,2}))?", fields[2])
            if not m or int(m[1]) * 100 + int(((m[2] or "") + "00")[:2]) > 100000:
                stop(n, "a weight is a number from 0 to 1000 with at most two decimals")
    elif word == "seen":
        if not colon or len(fields) != 1:
            stop(n, form)
    else:
        if colon or len(fields) != 2:
            stop(n, form)
        if not 1 <= number(fields[1], n) <= (64 if word == "pick" else 32):
            stop(n, "the number is out of range")
    weight = 100
    if word in ("topic", "bonus") and len(fields) == 3:
        weight = int(m[1]) * 100 + int(((m[2] or "") + "00")[:2])
    ids = [number(f, n) for f in tail.split(" ") if f]
    if word == "topic":
        if len(topics) == 32:
            stop(n, "more than 32 topics")
        topics.append((fields[1], ids, n, weight))
        continue
    if word in said:
        stop(n, "this may be said only once")
    said.add(word)
    if word == "bonus":
        bonus = (fields[1], ids, n, weight)
    if word == "seen":
        seen, seen_line = ids, n
    if word == "pick":
        pick = int(fields[1])
if not topics:
    stop(len(lines) + 1, "the card ends without a topic")

check(seen, seen_line)
out.append(" " * 26 + "exercises".rjust(10) + "first".rjust(12) + "last".rjust(12) + "seen".rjust(8))


def row(kind, topic):
    title, ids, line, _ = topic
    check(ids, line)
    met = len(set(ids) & set(seen))
    first, last = (str(ids[0]), str(ids[-1])) if ids else ("-", "-")
    out.append(kind.ljust(6) + title.ljust(20) + str(len(ids)).rjust(10) + first.rjust(12) + last.rjust(12) + str(met).rjust(8))
    return met


met = sum([row("topic", t) for t in topics])
if bonus:
    row("bonus", bonus)
out.append(f"{len(topics)} topics, {sum(len(t[1]) for t in topics)} exercises, {met} seen before")


def f32(x):
    return struct.unpack("f", struct.pack("f", x))[0]


def score(exercise, weight):
    """An exercise has its topic's weight, and the bonus's weight more where the bonus has it too."""
    total = f32(weight / 100)
    if bonus and exercise in bonus[1]:
        total = f32(total + f32(bonus[3] / 100))
    return total


for title, ids, line, weight in topics:
    out.append(f"{title}: rank, exercise, score")
    left = sorted((-score(i, weight), i) for i in ids if i not in seen)
    for rank, (points, i) in enumerate(left[: min(pick, 64)], 1):
        out.append(str(rank).rjust(4) + str(i).rjust(12) + f"{-points:.2f}".rjust(10))
print("\n".join(out))
