"""The TPM, reckoned from its table of commands: PCRs, sessions with policies, NV indices and sealed objects."""

import struct

from measured import BANKS, NUMBERS, SIZES, extended, hash_in, start

DEFINED, WRITTEN = 0x02060008, 0x22060008
LAST = 0xFFFFFFFF


class Refused(Exception):
    """A refusal of the TPM, by its name and what it shows."""

    def __init__(self, name, *shown):
        super().__init__(name)
        self.name, self.shown = name, shown

    def text(self):
        return " ".join([self.name, *self.shown])


# ---- digests of policies


def values_digest(bank, values):
    return hash_in(bank, b"".join(values))


def selection(bank, pcrs):
    mask = sum(1 << pcr for pcr in pcrs)
    return struct.pack(">IHB", 1, NUMBERS[bank], 3) + mask.to_bytes(3, "little")


def policy_pcr(hash, old, bank, pcrs, values):
    return hash_in(hash, old + bytes.fromhex("0000017f") + selection(bank, pcrs) + values_digest(hash, values))


def policy_or(hash, digests):
    return hash_in(hash, bytes(SIZES[hash]) + bytes.fromhex("00000171") + b"".join(digests))


def policy_authorize_nv(hash, name):
    return hash_in(hash, bytes(SIZES[hash]) + bytes.fromhex("00000192000b") + name)


def pin_policy(pin):
    inner = hash_in("sha256", bytes(32) + bytes.fromhex("00000160000b") + hash_in("sha256", pin))
    return hash_in("sha256", inner)


def index_name(index, attributes, policy, size=34):
    return hash_in("sha256", struct.pack(">IHIH", index, 0x000B, attributes, 32) + policy + struct.pack(">H", size))


# ---- a table's branches


def next_level(level):
    groups = [level[at : at + 8] for at in range(0, len(level), 8)]
    return [group[0] if len(group) == 1 else policy_or("sha256", group) for group in groups]


def levels(leaves):
    all_levels = [leaves]
    while len(all_levels[-1]) > 1:
        all_levels.append(next_level(all_levels[-1]))
    return all_levels


def path(all_levels, leaf):
    """The lists of PolicyOR that lead from a leaf to the row's top."""
    lists = []
    for level in all_levels[:-1]:
        group = level[leaf // 8 * 8 : leaf // 8 * 8 + 8]
        if len(group) > 1:
            lists.append(group)
        leaf //= 8
    return lists


def row_levels(top, bank, row):
    pcrs, states = row
    return levels([policy_pcr("sha256", top, bank, pcrs, state) for state in states])


def root(table):
    """The policy of a table (bank, rows)."""
    bank, rows = table
    top = bytes(32)
    for row in rows:
        top = row_levels(top, bank, row)[-1][0]
    return top


class Tpm:
    def __init__(self):
        self.pcrs = {bank: [start(bank, pcr, 0) for pcr in range(24)] for bank in BANKS}
        self.updates = self.next_session = self.writes = self.next_object = 0
        self.sessions, self.indices, self.objects = {}, {}, {}

    def restart(self, locality, banks):
        if locality not in (0, 3, 4) or not banks:
            raise Refused("value")
        self.pcrs = {bank: [start(bank, pcr, locality) for pcr in range(24)] for bank in BANKS if bank in banks}
        self.sessions, self.updates = {}, 0

    def extend(self, pcr, digests):
        if pcr > 23:
            raise Refused("value")
        if self.updates == LAST:
            raise Refused("counter-end", "update")
        for bank in self.pcrs:
            if bank in digests:
                self.pcrs[bank][pcr] = extended(bank, self.pcrs[bank][pcr], digests[bank])
        self.updates += 1

    def read(self, bank, pcr):
        if pcr > 23:
            raise Refused("value")
        if bank not in self.pcrs:
            raise Refused("bank-absent", bank)
        return self.pcrs[bank][pcr]

    def start_session(self, hash="sha256"):
        if hash not in ("sha256", "sha384"):
            raise Refused("value")
        if len(self.sessions) == 64:
            raise Refused("sessions-full")
        if self.next_session == 0x01000000:
            raise Refused("handles-end")
        handle = 0x03000000 + self.next_session
        self.next_session += 1
        self.sessions[handle] = {"hash": hash, "digest": bytes(SIZES[hash]), "noted": None, "entries": []}
        return handle

    def session(self, handle):
        if handle not in self.sessions:
            raise Refused("handle", f"{handle:08x}")
        return self.sessions[handle]

    def changed(self, session):
        if session["noted"] not in (None, self.updates):
            raise Refused("pcr-changed", str(session["noted"]), str(self.updates))

    def enter(self, session, digest, *entry):
        if len(session["entries"]) == 128:
            raise Refused("trail-full")
        session["digest"] = digest
        session["entries"].append(entry)

    def policy_pcr(self, handle, bank, pcrs):
        session = self.session(handle)
        if bank not in self.pcrs:
            raise Refused("bank-absent", bank)
        self.changed(session)
        values = [self.pcrs[bank][pcr] for pcr in sorted(pcrs)]
        digest = policy_pcr(session["hash"], session["digest"], bank, pcrs, values)
        self.enter(session, digest, "pcr", bank, pcrs, values_digest(session["hash"], values))
        session["noted"] = self.updates

    def policy_or(self, handle, digests):
        session = self.session(handle)
        fits = all(len(digest) == SIZES[session["hash"]] for digest in digests)
        if len(digests) < 2 or not fits or session["digest"] not in digests:
            raise Refused("value")
        self.enter(session, policy_or(session["hash"], digests), "or", digests)

    def policy_authorize_nv(self, handle, index):
        session = self.session(handle)
        held = self.index(index)
        if held["value"] is None:
            raise Refused("uninitialized")
        if held["value"] != struct.pack(">H", NUMBERS[session["hash"]]) + session["digest"]:
            raise Refused("value")
        name = self.name(index)
        self.enter(session, policy_authorize_nv(session["hash"], name), "authorize-nv", name, session["digest"], held["number"])

    def policy_get_digest(self, handle):
        return self.session(handle)["digest"]

    def flush(self, handle):
        self.session(handle)
        del self.sessions[handle]

    def index(self, index):
        if index not in self.indices:
            raise Refused("not-defined")
        return self.indices[index]

    def attributes(self, index):
        return DEFINED if self.index(index)["value"] is None else WRITTEN

    def name(self, index):
        return index_name(index, self.attributes(index), self.index(index)["policy"])

    def nv_define(self, index, attributes, policy, size):
        if not 0x01000000 <= index <= 0x01FFFFFF:
            raise Refused("handle", f"{index:08x}")
        if attributes != DEFINED:
            raise Refused("attributes")
        if size != 34:
            raise Refused("size")
        if len(policy) != 32:
            raise Refused("value")
        if index in self.indices:
            raise Refused("defined")
        if len(self.indices) == 16:
            raise Refused("table-full")
        self.indices[index] = {"policy": policy, "value": None, "number": None}

    def nv_undefine(self, index):
        self.index(index)
        del self.indices[index]

    def nv_write(self, index, pin, value):
        held = self.index(index)
        given = pin_policy(pin)
        if given != held["policy"]:
            raise Refused("pin-refused", given.hex(), held["policy"].hex())
        if len(value) != 34:
            raise Refused("size")
        if self.writes == LAST:
            raise Refused("counter-end", "writes")
        self.writes += 1
        held.update(value=value, number=self.writes)

    def nv_read(self, index):
        held = self.index(index)
        if held["value"] is None:
            raise Refused("uninitialized")
        return held["value"]

    def nv_read_public(self, index):
        return index, self.attributes(index), self.index(index)["policy"], 34

    def seal(self, policy, secret):
        if not secret:
            raise Refused("seal-size")
        if len(policy) not in (32, 48):
            raise Refused("value")
        if len(self.objects) == 64:
            raise Refused("objects-full")
        if self.next_object == 0x00800000:
            raise Refused("handles-end")
        handle = 0x81000000 + self.next_object
        self.next_object += 1
        self.objects[handle] = (policy, secret)
        return handle

    def evict(self, handle):
        if handle not in self.objects:
            raise Refused("handle", f"{handle:08x}")
        del self.objects[handle]

    def unseal(self, handle, object):
        session = self.session(handle)
        if object not in self.objects:
            raise Refused("handle", f"{object:08x}")
        self.changed(session)
        policy, secret = self.objects[object]
        if session["digest"] != policy:
            raise Refused("policy-fail", session["digest"].hex(), policy.hex())
        return secret


# ---- command lines


def number(text):
    return int(text, 16)


def some_bytes(text):
    return bytes.fromhex(text)


def numbers(text):
    return [] if text == "-" else [int(it) for it in text.split(",")]


def answer(tpm, line):
    """What the TPM answers to a command line that is known to be good."""
    name, *words = line.split(" ")
    try:
        if name == "restart":
            tpm.restart(int(words[0]), words[1].split(","))
        elif name == "pcr-extend":
            tpm.extend(int(words[0]), {bank: some_bytes(digits) for bank, digits in (it.split(":") for it in words[1].split(","))})
        elif name == "pcr-read":
            return f"pcr {tpm.read(words[0], int(words[1])).hex()}"
        elif name == "start-session":
            return f"session {tpm.start_session(*words):08x}"
        elif name == "policy-pcr":
            tpm.policy_pcr(number(words[0]), words[1], numbers(words[2]))
        elif name == "policy-or":
            tpm.policy_or(number(words[0]), [some_bytes(it) for it in words[1].split(",")])
        elif name == "policy-authorize-nv":
            tpm.policy_authorize_nv(number(words[0]), number(words[1]))
        elif name == "policy-get-digest":
            return f"digest {tpm.policy_get_digest(number(words[0])).hex()}"
        elif name == "flush-session":
            tpm.flush(number(words[0]))
        elif name == "nv-define":
            tpm.nv_define(number(words[0]), number(words[1]), some_bytes(words[2]), int(words[3]))
        elif name == "nv-undefine":
            tpm.nv_undefine(number(words[0]))
        elif name == "nv-write":
            tpm.nv_write(number(words[0]), some_bytes(words[1]), some_bytes(words[2]))
        elif name == "nv-read":
            return f"content {tpm.nv_read(number(words[0])).hex()}"
        elif name == "nv-read-public":
            index, attributes, policy, size = tpm.nv_read_public(number(words[0]))
            return f"public {index:08x} {attributes:08x} {policy.hex()} {size}"
        elif name == "seal":
            return f"object {tpm.seal(some_bytes(words[0]), some_bytes(words[1])):08x}"
        elif name == "evict":
            tpm.evict(number(words[0]))
        elif name == "unseal":
            return f"secret {tpm.unseal(number(words[0]), number(words[1])).hex()}"
        return "done"
    except Refused as refusal:
        return f"refused {refusal.text()}"
