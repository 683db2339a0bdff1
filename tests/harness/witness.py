"""What a witness tells of a key to one who knows a root: written from docs/WITNESS.md alone, over hashlib."""
from hashlib import sha256


def digest(data):
    return sha256(data).digest()


def bound(key):
    """The digest of a key, or of the lack of one."""
    return digest(b"" if key is None else b"\0" + key)


def key_at(data):
    """The key at the front of some bytes, or None, and what is behind it."""
    if data[:1] == b"\0":
        return None, data[1:]
    end = 9 + int.from_bytes(data[1:9], "little")
    if data[:1] != b"\1" or len(data) < max(9, end):
        raise ValueError
    return data[9:end], data[end:]


def verify(root, key, data):
    """`present` and the value, or `absent`; or `refused`, where the bytes tell nothing."""
    end = 42 + 32 * data[41] if len(data) > 41 else 42
    if len(data) < end or data[0] > 1:
        return "refused"
    place, given, rest = int.from_bytes(data[1:9], "little"), data[9:41], data[end:]
    if data[0] == 0:
        told, record = f"present {rest.hex() or '-'}", bound(key) + digest(rest) + given
    else:
        try:
            (below, rest), told = key_at(rest), "absent"
            above, rest = key_at(rest)
        except ValueError:
            return "refused"
        if rest or (below is not None and below >= key) or (above is not None and key >= above):
            return "refused"
        record = bound(below) + given + bound(above)
    node = digest(b"\0" + record)
    for at in range(42, end, 32):
        beside = data[at : at + 32]
        node = digest(b"\1" + (beside + node if place % 2 else node + beside))
        place //= 2
    return told if (place, node) == (1, root) else "refused"
