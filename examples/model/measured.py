"""Banks, logs, component files and predictions, reckoned from their definitions with hashlib alone."""

import hashlib
import json
import struct

BANKS = ("sha1", "sha256", "sha384", "sha512")
SIZES = {"sha1": 20, "sha256": 32, "sha384": 48, "sha512": 64}
NUMBERS = {"sha1": 0x0004, "sha256": 0x000B, "sha384": 0x000C, "sha512": 0x000D}
NAMES = {number: name for name, number in NUMBERS.items()}
NO_ACTION, SEPARATOR = 3, 4
KINDS = {
    3: "EV_NO_ACTION",
    4: "EV_SEPARATOR",
    5: "EV_ACTION",
    0xD: "EV_IPL",
    0x80000003: "EV_EFI_BOOT_SERVICES_APPLICATION",
    0x80000007: "EV_EFI_ACTION",
    0x800000E0: "EV_EFI_VARIABLE_AUTHORITY",
}


class Refusal(Exception):
    """An answer in place of a command's text: its line and its status."""

    def __init__(self, line, status):
        super().__init__(line)
        self.line, self.status = line, status


def hash_in(bank, data):
    return hashlib.new(bank, data).digest()


def extended(bank, value, digest):
    return hash_in(bank, value + digest)


def start(bank, pcr, locality):
    """What a PCR holds after a restart."""
    if 17 <= pcr <= 22:
        return b"\xff" * SIZES[bank]
    value = bytearray(SIZES[bank])
    if pcr == 0:
        value[-1] = locality
    return bytes(value)


# ---- the firmware's log


def write_firmware_log(records, banks):
    """A log of records (pcr, kind, digests by bank, event) behind its Spec ID record."""
    sizes = b"".join(struct.pack("<HH", NUMBERS[bank], SIZES[bank]) for bank in banks)
    spec = b"Spec ID Event03\0" + struct.pack("<IBBBBI", 0, 0, 2, 0, 2, len(banks)) + sizes + b"\0"
    text = struct.pack("<II", 0, NO_ACTION) + bytes(20) + struct.pack("<I", len(spec)) + spec
    for pcr, kind, digests, event in records:
        text += struct.pack("<III", pcr, kind, len(digests))
        for bank, digest in digests.items():
            text += struct.pack("<H", NUMBERS[bank]) + digest
        text += struct.pack("<I", len(event)) + event
    return text


def read_firmware_log(text):
    """The records of a log that is known to be good, and its locality."""
    place = 32 + struct.unpack_from("<I", text, 28)[0]
    count = struct.unpack_from("<I", text, 56)[0]
    sizes = dict(struct.unpack_from("<HH", text, 60 + 4 * number) for number in range(count))
    records, locality = [], None
    while place < len(text):
        pcr, kind, many = struct.unpack_from("<III", text, place)
        place += 12
        digests = {}
        for _ in range(many):
            (number,) = struct.unpack_from("<H", text, place)
            digest = text[place + 2 : place + 2 + sizes[number]]
            place += 2 + sizes[number]
            if number in NAMES:
                digests[NAMES[number]] = digest
        (size,) = struct.unpack_from("<I", text, place)
        event = text[place + 4 : place + 4 + size]
        place += 4 + size
        records.append((pcr, kind, digests, event))
        if (kind, pcr) == (NO_ACTION, 0) and event[:16] == b"StartupLocality\0" and len(event) == 17 and event[16] in (0, 3, 4):
            locality = event[16] if locality is None else locality
    return records, locality or 0


def lock_firmware(records, pcrs):
    """The records of the PCRs before and behind their first separators."""
    early, late, parted = [], [], set()
    for pcr, kind, digests, _ in records:
        if kind == NO_ACTION or pcr not in pcrs:
            continue
        if kind == SEPARATOR and pcr not in parted:
            parted.add(pcr)
        else:
            (late if pcr in parted else early).append((pcr, digests))
    for pcr in sorted(pcrs):
        if pcr not in parted and any(pcr == other for other, _ in early):
            raise Refusal(f"no separator: pcr {pcr}", 7)
    if max(len(early), len(late)) > 256:
        raise Refusal("limit: records 257", 4)
    return early, late


# ---- records as JSON


def record_object(pcr, digests, number=None):
    told = {"digests": [{"digest": digests[bank].hex(), "hashAlg": bank} for bank in BANKS if bank in digests], "pcr": pcr}
    if number is not None:
        told["recnum"] = number
    return told


def write_cel(records):
    return json.dumps([record_object(pcr, digests, at) for at, (pcr, digests) in enumerate(records)], separators=(",", ":"))


def component_text(records):
    return f'{{"records":{write_cel(records)}}}\n'.encode()


def read_record(told):
    return told["pcr"], {it["hashAlg"]: bytes.fromhex(it["digest"]) for it in told["digests"] if it["hashAlg"] in BANKS}


def read_records(text):
    told = json.loads(text)
    return [read_record(it) for it in (told["records"] if isinstance(told, dict) else told)]


def write_userspace_log(records):
    return b"".join(b"\x1e" + json.dumps(record_object(*it), separators=(",", ":")).encode() + b"\n" for it in records)


def read_userspace_log(text):
    """The records of a log, and how many texts were passed over."""
    texts = [json.loads(piece) for piece in text.split(b"\x1e")[1:]]
    records = [read_record(it) for it in texts if "pcr" in it]
    return records, len(texts) - len(records)


# ---- components


def read_tree(files, folders):
    """The components that a map of files has in the folders: (id, [(variant, records)]) by the bytes of the ids."""
    own, variants = {}, {}
    for folder in folders:
        for path in sorted(files):
            if not path.startswith(folder + "/"):
                continue
            parts = path[len(folder) + 1 :].split("/")
            if len(parts) == 1 and parts[0].endswith(".pcrlock"):
                own.setdefault(parts[0][: -len(".pcrlock")], path)
            if len(parts) == 2 and parts[0].endswith(".pcrlock.d") and parts[1].endswith(".pcrlock"):
                variants.setdefault(parts[0][: -len(".pcrlock.d")], {}).setdefault(parts[1], path)
    tree = []
    for name in sorted(set(own) | set(variants), key=str.encode):
        taken = [("-", own[name])] if name in own else []
        taken += [(file[: -len(".pcrlock")], path) for file, path in sorted(variants.get(name, {}).items(), key=lambda it: it[0].encode())]
        found = [(variant, read_variant(path, files[path])) for variant, path in taken if files[path]]
        if found:
            tree.append((name, found))
    return tree


def read_variant(path, text):
    try:
        return read_records(text)
    except ValueError as found:
        raise Refusal(f"malformed: {path}: json", 3) from found


def digests_of(records, pcr, bank):
    return [digests[bank] for at, digests in records if at == pcr]


def lacking(components, pcr, bank):
    for name, variants in components:
        for variant, records in variants:
            for place, (at, digests) in enumerate(records):
                if at == pcr and bank not in digests:
                    raise Refusal(f"no digest: {name} {variant} {place}", 7)


def end_within(short, long, place):
    """Where the first way ends to find the digests in the log, in order, from the place on; None where there is none."""
    for digest in short:
        if digest not in long[place:]:
            return None
        place = long.index(digest, place) + 1
    return place


def explained(components, pcr, bank, log):
    """None where some choice measures the log, else the cause why none does."""
    lacking(components, pcr, bank)
    ends = {0}
    for _, variants in components:
        lists = [digests_of(records, pcr, bank) for _, records in variants]
        ends = {end + len(it) for end in ends for it in lists if log[end : end + len(it)] == it}
    if len(log) in ends:
        return None
    place = 0
    for name, variants in components:
        found = [end_within(digests_of(records, pcr, bank), log, place) for _, records in variants]
        if all(end is None for end in found):
            return f"missing {name}"
        place = min(end for end in found if end is not None)
    return "unrecognised"


def inside(tree, end):
    return [it for it in tree if it[0].encode() <= end.encode()]


def once(states):
    return list(dict.fromkeys(states))


def foreseen(tree, window, pcrs, bank, locality):
    """The states of the PCRs after every choice at every cut of the window, each once, in the order of cuts and choices.

    Of states that are reached twice the first choice decides, so it is enough to go on from the states.
    """
    first, last = len(inside(tree, window[0])), len(inside(tree, window[1]))
    states = [tuple(start(bank, pcr, locality) for pcr in pcrs)]
    union = list(states) if first == 0 else []
    for number, (_, variants) in enumerate(tree[:last], 1):
        states = once(after(state, records, pcrs, bank) for state in states for _, records in variants)
        if number >= first:
            union = once(union + states)
        if max(len(states), len(union)) > 512:
            raise Refusal("limit: values 513", 4)
    return union


def after(state, records, pcrs, bank):
    """A state of the PCRs after a variant's records."""
    values = dict(zip(pcrs, state))
    for pcr, digests in records:
        if pcr in values:
            values[pcr] = extended(bank, values[pcr], digests[bank])
    return tuple(values[pcr] for pcr in pcrs)


def protect(tree, window, asked, bank, log, locality, now, joint):
    """The rows of a table, as (PCRs, states), and the cause of each PCR that is left out."""
    rows, left = [], {}
    components = inside(tree, window[1])
    for pcr in sorted(asked):
        measured = [digests.get(bank) for at, _, digests in log if at == pcr]
        if None in measured:
            left[pcr] = "no-digest"
            continue
        value = start(bank, pcr, locality)
        for digest in measured:
            value = extended(bank, value, digest)
        if value != now[pcr]:
            left[pcr] = "value-differs"
            continue
        cause = explained(components, pcr, bank, measured)
        states = None if joint else foreseen(tree, window, (pcr,), bank, locality)
        if cause:
            left[pcr] = cause
        else:
            rows.append(((pcr,), states))
    if joint and rows:
        pcrs = tuple(pcr for (pcr,), _ in rows)
        rows = [(pcrs, foreseen(tree, window, pcrs, bank, locality))]
    return rows, left
