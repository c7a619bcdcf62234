"""Proofs of what is foreseen: how each state comes about, the file that holds them, and their check."""

import re

from measured import SIZES, Refusal, after, inside, lacking, start

BYTES, LINES = 16_777_216, 12_288
NUMBER = r"(?:0|[1-9][0-9]*)"


def cuts_of(tree, window):
    return len(inside(tree, window[0])), len(inside(tree, window[1]))


def prove(tree, window, pcrs, bank, locality):
    """(cut, choice, state) of each state that is foreseen of the PCRs: its first cut, and its first choice there."""
    first, last = cuts_of(tree, window)
    for pcr in pcrs:
        lacking(tree[:last], pcr, bank)
    reached = {tuple(start(bank, pcr, locality) for pcr in pcrs): ()}
    given = {}
    for cut in range(last + 1):
        if cut:
            further = {}
            for state, choice in reached.items():
                for number, (_, records) in enumerate(tree[cut - 1][1]):
                    further.setdefault(after(state, records, pcrs, bank), (*choice, number))
            reached = further
        if cut >= first:
            for state, choice in reached.items():
                given.setdefault(state, (cut, choice))
        if max(len(reached), len(given)) > 512:
            raise Refusal("limit: values 513", 4)
    return [(cut, choice, state) for state, (cut, choice) in given.items()]


def commas(items):
    return ",".join(map(str, items))


def write(bank, locality, proofs):
    lines = [f"pcrlock-proof 1 {bank} {locality}"]
    lines += [f"{commas(pcrs)} {cut} {commas(choice) or '-'} {commas(it.hex() for it in state)}" for pcrs, cut, choice, state in proofs]
    return "".join(f"{line}\n" for line in lines).encode()


def numbers(word, most):
    """Numbers with commas between, none above the most; None where the word spells none."""
    if not re.fullmatch(f"{NUMBER}(?:,{NUMBER})*", word):
        return None
    found = [int(it) for it in word.split(",")]
    return found if max(found) <= most else None


def read_line(line, bank):
    words = line.split(" ")
    if len(words) != 4:
        return None
    pcrs, cut, choice = numbers(words[0], 23), numbers(words[1], 256), [] if words[2] == "-" else numbers(words[2], 63)
    if pcrs is None or sorted(set(pcrs)) != pcrs or cut is None or len(cut) != 1 or choice is None:
        return None
    values = words[3].split(",")
    if len(values) != len(pcrs) or not all(re.fullmatch(f"[0-9a-f]{{{2 * SIZES[bank]}}}", it) for it in values):
        return None
    return pcrs, cut[0], choice, [bytes.fromhex(it) for it in values]


def read(path, text):
    """The bank, the locality and the proofs of a file's text."""
    if len(text) > BYTES:
        raise Refusal(f"limit: proof-bytes {len(text)}", 4)
    *lines, rest = text.decode("latin-1").split("\n")
    head = re.fullmatch(f"pcrlock-proof 1 ({'|'.join(SIZES)}) ([034])", lines[0]) if lines else None
    if not head:
        raise Refusal(f"malformed: {path}: 0", 3)
    bank, proofs = head[1], []
    for number, line in enumerate(lines[1 : LINES + 1], 1):
        proofs.append(read_line(line, bank))
        if proofs[-1] is None:
            raise Refusal(f"malformed: {path}: {number}", 3)
    if len(lines) > LINES + 1 or rest and len(proofs) == LINES:
        raise Refusal("limit: proof-lines 12289", 4)
    if rest:
        raise Refusal(f"malformed: {path}: {len(proofs) + 1}", 3)
    return bank, int(head[2]), proofs


def is_proved(tree, window, bank, locality, proof):
    """Whether the choice is one, at a cut of the window, of records that all have the bank, and leads to the values."""
    pcrs, cut, choice, state = proof
    first, last = cuts_of(tree, window)
    if not first <= cut <= last or len(choice) != cut:
        return False
    if any(number >= len(variants) for number, (_, variants) in zip(choice, tree)):
        return False
    records = [record for number, (_, variants) in zip(choice, tree) for record in variants[number][1]]
    if any(pcr in pcrs and bank not in digests for pcr, digests in records):
        return False
    return after(tuple(start(bank, pcr, locality) for pcr in pcrs), records, pcrs, bank) == tuple(state)


def check(tree, window, bank, locality, proofs):
    for number, proof in enumerate(proofs, 1):
        if not is_proved(tree, window, bank, locality, proof):
            raise Refusal(f"not proved: line {number}", 1)
