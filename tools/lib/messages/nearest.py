"""The name that somebody may have meant."""


def distance(one, other):
    """How many letters are added, left out, changed, or exchanged with their neighbour."""
    rows = [list(range(len(other) + 1))]
    for at, letter in enumerate(one, 1):
        row = [at]
        for place, wanted in enumerate(other, 1):
            least = min(row[-1] + 1, rows[-1][place] + 1, rows[-1][place - 1] + (letter != wanted))
            is_exchanged = at > 1 and place > 1 and letter == other[place - 2] and one[at - 2] == wanted
            row.append(min(least, rows[-2][place - 2] + 1) if is_exchanged else least)
        rows.append(row)
    return rows[-1][-1]


def nearest(name, candidates):
    """The candidate that is most like a name, or None where none is much like it."""
    most = max(2, len(name) // 3)
    found = min(((distance(name.lower(), each.lower()), each) for each in sorted(set(candidates))), default=None)
    return found[1] if found and found[0] <= most and found[0] < len(name) else None


def hint(name, candidates, before="", after=""):
    """A question for the end of a message, or nothing."""
    found = nearest(name, candidates)
    return f"; did you mean {before}{found}{after}?" if found else ""
