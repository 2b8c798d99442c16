"""The encodings of documents that the converters take, those in C and those in Python alike."""

# What expat knows by itself.
OF_EXPAT = "UTF-8 UTF-16 UTF-16BE UTF-16LE US-ASCII ISO-8859-1".split()
# One byte for each character, by their registered names; those that iconv and Python read alike. tools/c/charsets.c has the same.
SINGLE_BYTE = ["ASCII"] + [f"ISO-8859-{part}" for part in (*range(2, 12), 13, 14, 15, 16)]
SINGLE_BYTE += [f"windows-{page}" for page in range(1250, 1259)] + ["KOI8-R", "KOI8-U"]
SINGLE_BYTE += [f"IBM{page}" for page in (437, 850, 852, 855, 857, 860, 861, 862, 863, 865, 866, 869)]

KNOWN = {name.upper() for name in OF_EXPAT + SINGLE_BYTE}


def is_known(name):
    """Whether documents may name this encoding, in whichever case."""
    return name.upper() in KNOWN
