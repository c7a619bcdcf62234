"""What the cases of examples/cases and the walk of examples/update expect, and what the model reckons of them."""

import os
from importlib.machinery import SourceFileLoader

import state
from commands import Machine, run_call, walk
from kept import Malformed
from machines import MACHINES
from measured import Refusal
from tpm import Tpm

HERE = os.path.dirname(os.path.abspath(__file__))
cases = SourceFileLoader("run_cases", f"{HERE}/../run_cases").load_module()
STATE = "tpm.state"
RECKONED_WHOLE = ("policies/", "proofs/")
BAD_INPUT = ("bad words", "malformed", "limit", "no such file", "read fault", "entropy fault")


def text_of(path):
    return cases.bytes_of(f"{HERE}/../{path}").decode()


def all_cases():
    topics = [topic for topic in sorted(os.listdir(cases.CASES)) if topic != "shared"]
    return [f"{topic}/{name}" for topic in topics for name in sorted(os.listdir(f"{cases.CASES}/{topic}"))]


def files_of(name):
    case, files = f"{cases.CASES}/{name}", {}
    for shared in cases.bytes_of(f"{case}/shared", b"").decode().split():
        files.update(cases.files_of(f"{cases.CASES}/shared/{shared}"))
    return {**files, **cases.files_of(f"{case}/files")}


def is_passed_over(name):
    err = cases.bytes_of(f"{cases.CASES}/{name}/stderr", b"").decode()
    return not name.startswith(RECKONED_WHOLE) and any(line.startswith(BAD_INPUT) for line in err.splitlines())


def left_of(name):
    return cases.files_of(f"{cases.CASES}/{name}/left")


def tpm_of(text):
    """The TPM of a state file, or what is answered of it; of none a TPM that was never used."""
    if text is None:
        return Tpm()
    try:
        return state.decode(text)
    except Malformed as found:
        return Refusal(f"malformed: {STATE}: {found.place}", 3)


def state_text(text):
    """A state file as its TPM in the newest version, so that files of one TPM are alike; a file that is none, as it is."""
    tpm = tpm_of(text or None)
    return text if isinstance(tpm, Refusal) else state.encode(tpm)


def expected(name):
    case = f"{cases.CASES}/{name}"
    said = {file: cases.bytes_of(f"{case}/{file}", b"") for file in ("stdout", "stderr")}
    return {**said, "status": int(cases.bytes_of(f"{case}/status", b"0")), "left": left_of(name)}


def reckoned(name):
    case, files = f"{cases.CASES}/{name}", files_of(name)
    files["script"] = cases.bytes_of(f"{case}/script", b"")
    machine = Machine(files, tpm_of(files.get(STATE)))
    before = text_of_tpm(machine)
    ran = [run_call(machine, call) for call in cases.calls_of(case)]
    if text_of_tpm(machine) != before:
        files[STATE] = text_of_tpm(machine)
    said = {"stdout": "".join(it[0] for it in ran).encode(), "stderr": "".join(it[1] for it in ran).encode()}
    return {**said, "status": ran[-1][2], "left": {path: files.get(path, b"") for path in left_of(name)}}


def text_of_tpm(machine):
    """What a machine's state file is to hold; None where it holds no state, and stays."""
    return None if isinstance(machine.stored, Refusal) else state.encode(machine.tpm)


def is_reckoned(name):
    """Whether the model reckons what a case expects; a state file may have another text of the same TPM."""
    found, wanted = reckoned(name), expected(name)
    for it in (found, wanted):
        if STATE in it["left"]:
            it["left"][STATE] = state_text(it["left"][STATE])
    return found == wanted


# ---- the walk over two kernels


def kernels():
    """The files of kernels/ that are made; its script is written by hand."""
    return {path: data for path, data in cases.files_of(f"{HERE}/../kernels").items() if path != "script"}


def kernels_made():
    return MACHINES["kernels"]


def walked():
    text, status = walk(Machine(dict(kernels())), text_of("kernels/script"))
    return text if status == 0 else f"{text}status {status}\n"
