"""The state file: a TPM as bytes, and back. A text is tested for its magic and for cuts, and for nothing else."""

import struct

from kept import Fields
from measured import BANKS, NAMES, NUMBERS, SIZES
from tpm import DEFINED, WRITTEN, Tpm

MAGIC, FIRST, SECOND = b"PLTPM\0\0", 1, 2
PCR, OR, AUTHORIZE_NV = 1, 2, 3


def entry_text(entry):
    kind, *told = entry
    if kind == "pcr":
        bank, pcrs, values = told
        return bytes([PCR]) + struct.pack(">H", NUMBERS[bank]) + sum(1 << pcr for pcr in pcrs).to_bytes(3, "little") + values
    if kind == "or":
        return bytes([OR, len(told[0])]) + b"".join(told[0])
    name, digest, number = told
    return bytes([AUTHORIZE_NV]) + name + digest + struct.pack(">I", number)


def session_text(handle, session):
    noted = b"\0" if session["noted"] is None else b"\1" + struct.pack(">I", session["noted"])
    text = struct.pack(">IH", handle, NUMBERS[session["hash"]]) + session["digest"] + noted
    return text + bytes([len(session["entries"])]) + b"".join(map(entry_text, session["entries"]))


def index_text(handle, index):
    if index["value"] is None:
        return struct.pack(">II", handle, DEFINED) + index["policy"] + struct.pack(">H", 34)
    return struct.pack(">II", handle, WRITTEN) + index["policy"] + struct.pack(">HI", 34, index["number"]) + index["value"]


def object_text(handle, object):
    policy, secret = object
    return struct.pack(">IH", handle, len(policy)) + policy + bytes([len(secret)]) + secret


def listed(text, rows):
    return bytes([len(rows)]) + b"".join(text(handle, rows[handle]) for handle in sorted(rows))


def encode(tpm):
    """The text of a TPM, in version 2."""
    banks = sum(1 << at for at, bank in enumerate(BANKS) if bank in tpm.pcrs)
    values = b"".join(value for bank in BANKS if bank in tpm.pcrs for value in tpm.pcrs[bank])
    counters = struct.pack(">IIII", tpm.updates, tpm.next_session, tpm.writes, tpm.next_object)
    rows = listed(session_text, tpm.sessions) + listed(index_text, tpm.indices) + listed(object_text, tpm.objects)
    return MAGIC + bytes([SECOND, banks]) + values + counters + rows


def entry_of(fields, size):
    kind = fields.number(1)
    if kind == PCR:
        bank, mask = NAMES[fields.number(2)], int.from_bytes(fields.taken(3), "little")
        return "pcr", bank, [pcr for pcr in range(24) if mask >> pcr & 1], fields.taken(size)
    if kind == OR:
        return "or", [fields.taken(size) for _ in range(fields.number(1))]
    return "authorize-nv", fields.taken(32), fields.taken(32), fields.number(4)


def session_of(fields, version):
    handle = fields.number(4)
    hash = "sha256" if version == FIRST else NAMES[fields.number(2)]
    digest = fields.taken(SIZES[hash])
    noted = fields.number(4) if fields.number(1) else None
    entries = [entry_of(fields, SIZES[hash]) for _ in range(fields.number(1))]
    return handle, {"hash": hash, "digest": digest, "noted": noted, "entries": entries}


def index_of(fields):
    handle, attributes, policy, _ = fields.number(4), fields.number(4), fields.taken(32), fields.number(2)
    number, value = (fields.number(4), fields.taken(34)) if attributes == WRITTEN else (None, None)
    return handle, {"policy": policy, "value": value, "number": number}


def object_of(fields, version):
    handle = fields.number(4)
    policy = fields.taken(32 if version == FIRST else fields.number(2))
    return handle, (policy, fields.taken(fields.number(1)))


def values_of(fields, size):
    values = fields.taken(24 * size)
    return [values[at : at + size] for at in range(0, len(values), size)]


def decode(text):
    """The TPM of a text in version 1 or 2."""
    fields, tpm = Fields(text), Tpm()
    version = fields.taken(8, lambda field: field in (MAGIC + bytes([FIRST]), MAGIC + bytes([SECOND])))[7]
    banks = fields.number(1)
    tpm.pcrs = {bank: values_of(fields, SIZES[bank]) for at, bank in enumerate(BANKS) if banks >> at & 1}
    tpm.updates, tpm.next_session, tpm.writes, tpm.next_object = (fields.number(4) for _ in range(4))
    tpm.sessions = dict(session_of(fields, version) for _ in range(fields.number(1)))
    tpm.indices = dict(index_of(fields) for _ in range(fields.number(1)))
    tpm.objects = dict(object_of(fields, version) for _ in range(fields.number(1)))
    return tpm
