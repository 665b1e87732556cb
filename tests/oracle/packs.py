"""Packed texts, as the oracle reads and writes them: a line with the length, then the bytes."""


def pack(texts):
    return b"".join(b"%d\n%s" % (len(text), text) for text in texts)


def unpack(data):
    """The texts of a stream; what is no such stream raises ValueError."""
    texts, at = [], 0
    while at < len(data):
        end = data.find(b"\n", at)
        header = data[at:end]
        if end < 0 or not header.isdigit():
            raise ValueError(f"a text does not begin with its length: {data[at:at + 40]!r}")
        at = end + 1 + int(header)
        if at > len(data):
            raise ValueError("the last text is cut short")
        texts.append(data[end + 1 : at])
    return texts
