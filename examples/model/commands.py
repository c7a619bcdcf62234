"""What each command prints and leaves, over a map of files and a TPM; words and files are taken to be good ones."""

import brokers
import kept
import measured
import proofs
import tpm as chip
from measured import BANKS, KINDS, NO_ACTION, Refusal, SIZES
from tpm import Refused

FIRMWARE_LOG = "/sys/kernel/security/tpm0/binary_bios_measurements"
USERSPACE_LOG = "/run/log/systemd/tpm2-measure.log"
FOLDERS = "/etc/pcrlock.d,/run/pcrlock.d,/var/lib/pcrlock.d,/usr/local/lib/pcrlock.d,/usr/lib/pcrlock.d"
PCRS = "0,1,2,3,4,5,7,11,12,13,14,15"
FLAGS = ("--joint", "--force", "--broker")


def options(words):
    """The options of a command line, by their names."""
    told, rest = {}, list(words)
    while rest:
        word = rest.pop(0)
        if word in FLAGS:
            told[word] = True
        elif "=" in word:
            name, value = word.split("=", 1)
            told[name] = value
        else:
            told[word] = rest.pop(0)
    return told


POLICY, INDEX = "pcrlock.policy", 0x01800100
FAULT = 5


class NotReckoned(Exception):
    """A random word is drawn, which the model has none of."""


class Machine:
    """What lies where the program runs; `stored` is the TPM, or what is answered of a state file that is none."""

    def __init__(self, files, stored=None):
        self.files, self.stored, self.policy, self.index = files, stored or chip.Tpm(), POLICY, INDEX

    @property
    def tpm(self):
        if isinstance(self.stored, Refusal):
            raise self.stored
        return self.stored

    def draw(self):
        """A random word of 32 bytes."""
        raise NotReckoned

    # ---- files

    def found(self, path):
        """A file's bytes; None where there is none."""
        below = [path[:at] for at, letter in enumerate(path) if letter == "/"]
        if any(it.startswith(f"{path}/") for it in self.files) or any(it in self.files for it in below):
            raise Refusal("read fault", FAULT)
        return self.files.get(path)

    def file(self, path):
        text = self.found(path)
        if text is None:
            raise Refusal(f"no such file: {path}", 3)
        return text

    def put(self, path, text):
        """Writes a file; it is written beside its place first, where no folder may stand."""
        if any(it.startswith((f"{path}/", f"{path}.new/")) for it in self.files):
            raise Refusal("write fault", FAULT)
        self.files.pop(f"{path}.new", None)
        self.files[path] = text

    def logs(self, told):
        """The combined log as (pcr, kind, digests), the locality, and the passed-over texts."""
        firmware, locality, user, skipped = [], 0, [], 0
        path = told.get("--firmware-log", FIRMWARE_LOG)
        if "--firmware-log" in told or path in self.files:
            firmware, locality = measured.read_firmware_log(self.file(path))
        path = told.get("--userspace-log", USERSPACE_LOG)
        if "--userspace-log" in told or path in self.files:
            user, skipped = measured.read_userspace_log(self.file(path))
        log = [(pcr, KINDS.get(kind, f"0x{kind:08x}"), digests) for pcr, kind, digests, _ in firmware if kind != NO_ACTION]
        return log + [(pcr, "user", digests) for pcr, digests in user], locality, skipped

    def tree(self, told):
        return measured.read_tree(self.files, told.get("--components", FOLDERS).split(","))

    def present(self, bank):
        if bank not in self.tpm.pcrs:
            raise Refusal(f"bank absent: {bank}", 7)
        return self.tpm.pcrs[bank]

    def protection(self, told):
        log, locality, _ = self.logs(told)
        tree = self.tree(told)
        bank = told.get("--bank", "sha256")
        now = self.present(bank)
        rows, left = measured.protect(tree, window_of(told), asked_in(told), bank, log, locality, now, "--joint" in told)
        return bank, rows, left

    # ---- what looks

    def cel(self, told):
        log, _, _ = self.logs(told)
        return measured.write_cel([(pcr, digests) for pcr, _, digests in log]) + "\n"

    def list_components(self, told):
        return "".join(f"{name} {variant} {len(records)}\n" for name, variants in self.tree(told) for variant, records in variants)

    def listed_by(self, tree, pcr, digests):
        for name, variants in tree:
            for _, records in variants:
                for at, other in records:
                    shared = set(digests) & set(other)
                    if at == pcr and shared and all(digests[bank] == other[bank] for bank in shared):
                        return name
        return "-"

    def log(self, told):
        log, locality, skipped = self.logs(told)
        tree = self.tree(told)
        bank = told.get("--bank", "sha256")
        now = self.present(bank)
        text = ""
        for at, (pcr, kind, digests) in enumerate(log):
            digest = digests[bank].hex() if bank in digests else "-"
            text += f"{at} {pcr} {kind} {digest} {self.listed_by(tree, pcr, digests)}\n"
        for pcr in range(24):
            value = measured.start(bank, pcr, locality)
            for other, _, digests in log:
                if other == pcr:
                    value = value and bank in digests and measured.extended(bank, value, digests[bank]) or None
            word = "nodigest" if value is None else "ok" if value == now[pcr] else "differs"
            text += f"pcr {pcr} {value.hex() if value else '-'} {now[pcr].hex()} {word}\n"
        return text + f"skipped {skipped}\n"

    def predict(self, told):
        _, rows, left = self.protection(told)
        return rows_text(rows, left, "--joint" in told, lambda pcr, states: [f"{pcr} {state}" for state in states])

    # ---- what steps the TPM

    def tpm_boot(self, told):
        log, locality, _ = self.logs(told)
        self.tpm.restart(int(told.get("--locality", locality)), told.get("--banks", ",".join(BANKS)).split(","))
        for pcr, _, digests in log:
            ask(self.tpm.extend, pcr, digests)
        return f"records {len(log)}\n"

    def tpm_extend(self, told):
        data = told["--text"].encode() if "--text" in told else bytes.fromhex(told["--hex"])
        ask(self.tpm.extend, int(told["--pcr"]), {bank: measured.hash_in(bank, data) for bank in BANKS})
        return ""

    def tpm_exec(self, told):
        lines = self.file(told["--commands"]).decode().split("\n")
        return "".join(f"{chip.answer(self.tpm, line)}\n" for line in lines if line and not line.startswith("#"))

    def broker(self, told):
        lines = self.file(told["--commands"]).decode().split("\n")
        asked = [line.split(" ", 1) for line in lines if line and not line.startswith("#")]
        served = brokers.Broker(self.tpm, int(told["--clients"]))
        text = "".join(f"{client} {served.answer(int(client), line)}\n" for client, line in asked)
        served.leave()
        return text

    # ---- component files

    def lock(self, told, name, pcrs):
        path = told.get("--firmware-log", FIRMWARE_LOG)
        records = []
        if "--firmware-log" in told or path in self.files:
            records, _ = measured.read_firmware_log(self.file(path))
        early, late = measured.lock_firmware(records, pcrs)
        for path, part in zip(lock_paths(told, name), (early, late)):
            self.put(path, measured.component_text(part))
        return f"locked {len(early)} {len(late)}\n"

    def unlock(self, told, name):
        found = [self.files.pop(path) for path in lock_paths(told, name) if path in self.files]
        return f"unlocked {len(found)}\n"

    def lock_raw(self, told):
        data = self.file(told["--file"])
        digests = {bank: measured.hash_in(bank, data) for bank in BANKS}
        self.put(told["--output"], measured.component_text([(int(told["--pcr"]), digests)]))
        return "locked 1\n"

    # ---- proofs of what is foreseen

    def prove(self, told):
        if told["--output"] == self.policy:
            raise Refusal("bad words", 2)
        tree, bank, locality = self.tree(told), told.get("--bank", "sha256"), int(told.get("--locality", 0))
        asked = asked_in(told)
        masks = [asked] if "--joint" in told else [[pcr] for pcr in asked]
        found = [(pcrs, *it) for pcrs in masks for it in proofs.prove(tree, window_of(told), pcrs, bank, locality)]
        self.put(told["--output"], proofs.write(bank, locality, found))
        return f"proved {len(found)}\n"

    def check_proof(self, told):
        bank, locality, found = proofs.read(told["--proof"], self.file(told["--proof"]))
        proofs.check(self.tree(told), window_of(told), bank, locality, found)
        return f"checked {len(found)}\n"

    # ---- keys and policies

    def policy_found(self):
        text = self.found(self.policy)
        return None if text is None else kept.read_kept(self.policy, text, kept.read_policy, "policy", 4_194_304)

    def read_policy(self):
        policy = self.policy_found()
        if policy is None:
            raise Refusal(f"no policy: {self.policy}", 7)
        return policy

    def read_token(self, path):
        text = self.found(path)
        if text is None:
            raise Refusal(f"no token: {path}", 7)
        return kept.read_kept(path, text, kept.read_token, "token", 256)

    def enroll(self, told):
        literal = None
        if "--literal" in told:
            bank, pcr = told.get("--bank", "sha256"), int(told["--literal"])
            hash = "sha384" if bank in ("sha384", "sha512") else "sha256"
            value = self.present(bank)[pcr]
            literal = hash, bank, pcr, value
            policy = chip.policy_pcr(hash, bytes(SIZES[hash]), bank, [pcr], [value])
        else:
            held = self.read_policy()
            policy = bound_to(held["handle"], held["policy"])
        seal = self.tpm.seal
        handle = ask(seal, policy, bytes.fromhex(told["--key"]) if "--key" in told else self.draw())
        self.put(told["--token"], kept.write_token(handle, literal))
        return f"enrolled {handle:08x}\n"

    def unseal(self, told):
        handle, literal = self.read_token(told["--token"])
        secret = self.open_literal(*literal, handle) if literal else self.open_bound(self.read_policy(), handle)
        return f"key {secret.hex()}\n"

    def can_start(self):
        if len(self.tpm.sessions) >= 64:
            raise Refusal("sessions full: 64", 7)
        if self.tpm.next_session >= 0x01000000:
            raise Refusal("limit: handles 16777216", 4)
        self.tpm.next_session += 1

    def open_object(self, policy, handle):
        if handle not in self.tpm.objects:
            raise Refusal(f"no object: {handle:08x}", 7)
        held, secret = self.tpm.objects[handle]
        if held != policy:
            raise Refusal(f"wrong binding: session {policy.hex()}, object {held.hex()}", 7)
        return secret

    def open_literal(self, hash, bank, pcr, value, handle):
        self.can_start()
        now = self.present(bank)[pcr]
        if now != value:
            raise Refusal(f"not literal: pcr {pcr} holds {now.hex()}, sealed to {value.hex()}", 1)
        return self.open_object(chip.policy_pcr(hash, bytes(SIZES[hash]), bank, [pcr], [value]), handle)

    def open_bound(self, policy, handle):
        """The secret of an object that is bound to a policy's index, told by the values of PCRs."""
        index = policy["handle"]
        if index not in self.tpm.indices:
            raise Refusal(f"no index: {index:08x}", 7)
        content = self.tpm.indices[index]["value"]
        if content is None:
            raise Refusal(f"unwritten index: {index:08x}", 7)
        named = named_by(content, policy["tables"])
        if not named:
            raise Refusal(f"outdated: index {content[2:].hex()}, file {chip.root(policy['tables'][-1]).hex()}", 7)
        bank, rows = named[-1]
        self.can_start()
        now = self.present(bank)
        for pcrs, states in rows:
            values = tuple(now[pcr] for pcr in pcrs)
            if values not in states:
                if len(pcrs) == 1:
                    raise Refusal(f"not foreseen: pcr {pcrs[0]} holds {values[0].hex()}", 1)
                shown = chip.values_digest("sha256", values).hex()
                raise Refusal(f"not foreseen: pcrs {','.join(map(str, pcrs))} hold {shown}", 1)
        return self.open_object(chip.policy_authorize_nv("sha256", self.tpm.name(index)), handle)

    def make_policy(self, told):
        old = self.policy_found()
        bank, rows, left = self.protection(told)
        text = rows_text(rows, left, "--joint" in told, lambda pcr, states: [f"{pcr} {len(states)}"], counts=True)
        if not rows:
            raise Refusal("nothing protected", 7)
        table = (bank, rows)
        handle = old["handle"] if old else self.index
        pin = bytes.fromhex(told["--pin"]) if "--pin" in told else None
        held = self.tpm.indices.get(handle)
        if held and held["value"] is not None:
            return text + self.update(old, handle, held, table, pin, "--force" in told)
        return text + self.make(old, handle, held, table, pin)

    def state_policy(self, handle, pin, object, tables):
        policy = {"handle": handle, "policy": chip.pin_policy(pin), "object": object, "tables": tables}
        self.put(self.policy, kept.write_policy(policy))

    def seal_pin(self, handle, pin):
        return ask(self.tpm.seal, bound_to(handle, chip.pin_policy(pin)), pin)

    def make(self, old, handle, held, table, pin):
        told = ""
        if pin is None:
            pin = self.draw()
            told = f"pin {pin.hex()}\n"
        if held:
            self.tpm.nv_undefine(handle)
        ask(self.tpm.nv_define, handle, chip.DEFINED, chip.pin_policy(pin), 34)
        object = self.seal_pin(handle, pin)
        self.state_policy(handle, pin, object, [table])
        ask(self.tpm.nv_write, handle, pin, content_for(table))
        if old:
            self.tpm.objects.pop(old["object"], None)
        return f"{told}made\n"

    def update(self, old, handle, held, table, pin, force):
        own = old is not None and old["policy"] == held["policy"]
        given = chip.pin_policy(pin) if pin else None
        if not own and given != held["policy"]:
            raise Refusal(f"index taken: {handle:08x} {self.tpm.name(handle).hex()}", 7)
        if pin and given != held["policy"]:
            raise Refusal(f"pin refused: given {given.hex()}, index {held['policy'].hex()}", 7)
        if own and table in old["tables"] and held["value"] == content_for(table) and not force:
            return "unchanged\n"
        if pin:
            object = self.seal_pin(handle, pin)
            self.put_in_force(old, handle, held, table, pin, object)
            if old:
                self.tpm.objects.pop(old["object"], None)
            return "updated\n"
        pin = self.open_bound(old, old["object"])
        if len(pin) != 32 or chip.pin_policy(pin) != held["policy"]:
            raise Refusal(f"malformed: {self.policy}: 44", 3)
        self.put_in_force(old, handle, held, table, pin, old["object"])
        return "updated\n"

    def put_in_force(self, old, handle, held, table, pin, object):
        """Writes the policy file with the table that the index names beside the new one, the index, and the file again."""
        standing = named_by(held["value"], old["tables"])[-1:] if old else []
        self.state_policy(handle, pin, object, [*standing, table])
        ask(self.tpm.nv_write, handle, pin, content_for(table))
        self.state_policy(handle, pin, object, [table])

    def remove_policy(self, told):
        policy = self.read_policy()
        held = self.tpm.indices.get(policy["handle"])
        if held and held["policy"] == policy["policy"]:
            self.tpm.nv_undefine(policy["handle"])
        self.tpm.objects.pop(policy["object"], None)
        del self.files[self.policy]
        return "removed\n"


ANSWERS = {
    "objects-full": "limit: objects 65",
    "handles-end": "limit: handles 8388608",
    "table-full": "limit: indices 17",
    "counter-end update": "counter at its end: update",
    "counter-end writes": "counter at its end: writes",
}


def ask(command, *given):
    """What the TPM answers to a command that seals, defines, writes or extends; a refusal of it is the answer."""
    try:
        return command(*given)
    except Refused as refusal:
        raise Refusal(ANSWERS[refusal.text()], 4) from refusal


def bound_to(handle, policy):
    """The policy of an object that an index of this policy opens once it is written."""
    return chip.policy_authorize_nv("sha256", chip.index_name(handle, chip.WRITTEN, policy))


def content_for(table):
    return b"\0\x0b" + chip.root(table)


def named_by(content, tables):
    return [table for table in tables if content_for(table) == content]


def window_of(told):
    return (told.get("--location", "760-:940-").split(":") * 2)[:2]


def asked_in(told):
    return sorted(int(it) for it in told.get("--pcr", PCRS).split(","))


def rows_text(rows, left, joint, lines, counts=False):
    """The rows of a table and the causes of the PCRs that are left out, as predict and make-policy print them."""
    if joint:
        told = []
        for pcrs, states in rows:
            named = ",".join(map(str, pcrs))
            told += [f"joint {named} {len(states)}"] if counts else [f"joint {named} {','.join(it.hex() for it in state)}" for state in states]
        told += [f"{pcr} - {left[pcr]}" for pcr in sorted(left)]
    else:
        of_pcr = {pcrs[0]: lines(pcrs[0], [state[0].hex() for state in states]) for pcrs, states in rows}
        of_pcr.update({pcr: [f"{pcr} - {cause}"] for pcr, cause in left.items()})
        told = [line for pcr in sorted(of_pcr) for line in of_pcr[pcr]]
    return "".join(f"{line}\n" for line in told)


def lock_paths(told, name):
    folder, variant = told["--folder"], told.get("--variant", "generated")
    return [f"{folder}/250-firmware-{name}-early.pcrlock.d/{variant}.pcrlock", f"{folder}/550-firmware-{name}-late.pcrlock.d/{variant}.pcrlock"]


COMMANDS = {
    "cel": Machine.cel,
    "list-components": Machine.list_components,
    "log": Machine.log,
    "predict": Machine.predict,
    "tpm-boot": Machine.tpm_boot,
    "tpm-extend": Machine.tpm_extend,
    "tpm-exec": Machine.tpm_exec,
    "broker": Machine.broker,
    "lock-firmware-code": lambda machine, told: machine.lock(told, "code", {0, 2}),
    "lock-firmware-config": lambda machine, told: machine.lock(told, "config", {1, 3}),
    "unlock-firmware-code": lambda machine, told: machine.unlock(told, "code"),
    "unlock-firmware-config": lambda machine, told: machine.unlock(told, "config"),
    "lock-raw": Machine.lock_raw,
    "prove": Machine.prove,
    "check-proof": Machine.check_proof,
    "enroll": Machine.enroll,
    "unseal": Machine.unseal,
    "make-policy": Machine.make_policy,
    "remove-policy": Machine.remove_policy,
}


def run_line(machine, words):
    """What a command prints, its line on standard error, and its status."""
    try:
        told = options(words[1:])
        if machine.policy in (told.get("--token"), told.get("--output")):
            raise Refusal("bad words", 2)
        return COMMANDS[words[0]](machine, told), "", 0
    except Refusal as refusal:
        return "", f"{refusal.line}\n", refusal.status


def run_lines(machine, text):
    """Each line of a script, and what it prints, its line on standard error and its status; None where it is passed over.

    A line with a fault ends the script.
    """
    for line in text.removesuffix("\n").split("\n"):
        words = line.split()
        ran = None if not words or words[0].startswith("#") else run_line(machine, words)
        yield line, ran
        if ran and ran[2] == FAULT:
            return


def mark(status):
    return "" if status == FAULT else f"= {status}\n"


def run_call(machine, words):
    """What a call of the program prints, its lines on standard error, and its status."""
    told = options(words[1:])
    machine.policy, machine.index = told.get("--policy", POLICY), int(told["--index"], 16) if "--index" in told else INDEX
    if words[0] != "script":
        return run_line(machine, words)
    try:
        return run_script(machine, machine.file(told["--file"]).decode())
    except Refusal as refusal:
        return "", f"{refusal.line}\n", refusal.status


def run_script(machine, text):
    """What a script prints, its lines on standard error, and its status."""
    ran = [it for _, it in run_lines(machine, text) if it]
    out = "".join(f"{printed}{mark(status)}" for printed, _, status in ran)
    return out, "".join(told for _, told, _ in ran), ran[-1][2] if ran else 0


def walk(machine, text):
    """A script's lines with what is said to each of them, as a walk of the examples prints it, and its status."""
    walked, status = "", 0
    for line, ran in run_lines(machine, text):
        if ran is None:
            walked += f"{line}\n"
        else:
            printed, told, status = ran
            walked += f"$ {line}\n{printed}{told}{mark(status)}"
    return walked, status
