"""The files that the policy commands keep: the policy file and the token, written and read by their layouts."""

import struct

from measured import NAMES, NUMBERS, SIZES, Refusal

POLICY, TOKEN = b"PLPOL\0\0", b"PLTOK\0\0\1"
OBJECTS = range(0x81000000, 0x81800000)
BOUND, UNDER_SHA256, UNDER_SHA384 = 0, 1, 2


class Malformed(Exception):
    """A text that is none of its layout, by the place of the first field that is cut or not allowed."""

    def __init__(self, place):
        super().__init__(place)
        self.place = place


class Fields:
    """The fields of a text, taken from left to right."""

    def __init__(self, text):
        self.text, self.place = text, 0

    def taken(self, size, allowed=lambda field: True):
        field = self.text[self.place : self.place + size]
        if len(field) < size or not allowed(field):
            raise Malformed(self.place)
        self.place += size
        return field

    def number(self, size, allowed=range(1 << 32)):
        return int.from_bytes(self.taken(size, lambda field: int.from_bytes(field, "big") in allowed), "big")

    def ended(self):
        if self.place < len(self.text):
            raise Malformed(self.place)


def pcrs_of(mask):
    return tuple(pcr for pcr in range(24) if mask >> pcr & 1)


# ---- the policy file


def row_text(version, size, pcrs, states):
    """A row; in version 1 its PCR, in version 2 its mask."""
    named = bytes(pcrs) if version == 1 else struct.pack(">I", sum(1 << pcr for pcr in pcrs))
    return named + struct.pack(">H", len(states)) + b"".join(value for state in states for value in state)


def write_policy(policy):
    version = 2 if any(len(pcrs) > 1 for _, rows in policy["tables"] for pcrs, _ in rows) else 1
    text = POLICY + bytes([version]) + struct.pack(">I", policy["handle"]) + policy["policy"]
    text += struct.pack(">IB", policy["object"], len(policy["tables"]))
    for bank, rows in policy["tables"]:
        text += struct.pack(">HB", NUMBERS[bank], len(rows))
        text += b"".join(row_text(version, SIZES[bank], *row) for row in rows)
    return text


def read_state(fields, size, pcrs, before):
    """A row's next state; one that stands there twice is at fault where it begins."""
    place = fields.place
    state = tuple(fields.taken(size) for _ in pcrs)
    if state in before:
        raise Malformed(place)
    return state


def read_row(fields, version, size, before):
    """A row behind the rows of its table that came before."""
    used = [pcr for pcrs, _ in before for pcr in pcrs]
    first = max([pcrs[0] for pcrs, _ in before], default=-1) + 1
    if version == 1:
        pcrs = (fields.number(1, range(first, 24)),)
    else:
        named = fields.taken(4, lambda field: is_mask(int.from_bytes(field, "big"), first, used))
        pcrs = pcrs_of(int.from_bytes(named, "big"))
    states = []
    for _ in range(fields.number(2, range(1, 513))):
        states.append(read_state(fields, size, pcrs, states))
    return pcrs, states


def is_mask(mask, first, used):
    """Whether a mask may stand in a row: none of its PCRs was used, and its lowest is not below the first that may follow."""
    pcrs = pcrs_of(mask)
    return 0 < mask < 1 << 24 and pcrs[0] >= first and not set(pcrs) & set(used)


def read_table(fields, version):
    bank = NAMES[fields.number(2, NAMES)]
    rows = []
    for _ in range(fields.number(1, range(1, 25))):
        rows.append(read_row(fields, version, SIZES[bank], rows))
    return bank, rows


def read_policy(text):
    fields = Fields(text)
    version = fields.taken(8, lambda field: field in (POLICY + b"\1", POLICY + b"\2"))[7]
    policy = {"handle": fields.number(4, range(0x01000000, 0x02000000)), "policy": fields.taken(32)}
    policy["object"] = fields.number(4, OBJECTS)
    policy["tables"] = [read_table(fields, version) for _ in range(fields.number(1, (1, 2)))]
    if version == 2 and all(len(pcrs) == 1 for _, rows in policy["tables"] for pcrs, _ in rows):
        raise Malformed(7)
    fields.ended()
    return policy


# ---- the token


def write_token(handle, literal=None):
    """The token of an object: bound, or of a literal (hash, bank, PCR, value)."""
    text = TOKEN + struct.pack(">I", handle)
    if literal is None:
        return text + bytes([BOUND])
    hash, bank, pcr, value = literal
    return text + struct.pack(">BHB", UNDER_SHA384 if hash == "sha384" else UNDER_SHA256, NUMBERS[bank], pcr) + value


def read_token(text):
    """The object of a token, and its literal where it has one."""
    fields = Fields(text)
    fields.taken(8, lambda field: field == TOKEN)
    handle, literal = fields.number(4, OBJECTS), None
    kind = fields.number(1, (BOUND, UNDER_SHA256, UNDER_SHA384))
    if kind != BOUND:
        bank = NAMES[fields.number(2, NAMES)]
        literal = "sha384" if kind == UNDER_SHA384 else "sha256", bank, fields.number(1, range(24)), fields.taken(SIZES[bank])
    fields.ended()
    return handle, literal


# ---- either, as a command takes it


def read_kept(path, text, read, kind, limit):
    """A file's value by its reader, or what a command answers of a file that is none."""
    if len(text) > limit:
        raise Refusal(f"limit: {kind}-bytes {len(text)}", 4)
    try:
        return read(text)
    except Malformed as found:
        raise Refusal(f"malformed: {path}: {found.place}", 3) from found
