#!/usr/bin/env python3
"""Checks a file of proofs that `pcrlock prove` wrote, by hashlib alone: nothing of pcrlock runs here.

    examples/check_proofs.py FILE START:END FOLDER [FOLDER ..]

The first line of FILE tells the bank and the locality at which the platform starts. Each line behind it says: the first
CUT of the components in the folders were measured, of each the variant that CHOICE names, and so PCRS hold VALUES. The
check goes that way itself: from the values of a restart on it extends each PCR by the records of the chosen variants,
and compares. CUT has to be the number of the components up to START, of those up to END, or one between: that is the
window which `prove` was given as --location. Prints `checked` and the number of the proofs, or the first line that
isn't so; the status is then 1."""
import glob
import hashlib
import json
import sys


def components(folders):
    """Each component's name and the lists of records of its variants; the first folder hides those behind it."""
    files, tree = {}, {}
    for folder in reversed(folders):
        for path in glob.glob(f"{folder}/*.pcrlock") + glob.glob(f"{folder}/*.pcrlock.d/*.pcrlock"):
            files[path[len(folder) + 1 :]] = path
    for name in sorted(files):
        with open(files[name], "rb") as file:
            text = file.read()
        if text:
            told = json.loads(text)
            id = name.split("/")[0].removesuffix(".d").removesuffix(".pcrlock")
            tree.setdefault(id, []).append(told["records"] if isinstance(told, dict) else told)
    return sorted(tree.items())


def holds(line, bank, locality, tree, cuts):
    pcrs, cut, choice, values = line.split(" ")
    choice = [int(it) for it in choice.split(",") if it != "-"]
    size = hashlib.new(bank).digest_size
    held = {pcr: (b"\xff" if 17 <= pcr <= 22 else b"\0") * size for pcr in map(int, pcrs.split(","))}
    if 0 in held:
        held[0] = bytes(size - 1) + bytes([locality])
    if int(cut) not in cuts or len(choice) != int(cut) or any(it >= len(own) for it, (_, own) in zip(choice, tree)):
        return False
    for record in (record for it, (_, own) in zip(choice, tree) for record in own[it] if record["pcr"] in held):
        digests = {it["hashAlg"]: bytes.fromhex(it["digest"]) for it in record["digests"]}
        if bank not in digests:
            return False
        held[record["pcr"]] = hashlib.new(bank, held[record["pcr"]] + digests[bank]).digest()
    return [it.hex() for it in held.values()] == values.split(",")


def main(path, window, *folders):
    tree = components(folders)
    first, last = (sum(id <= place for id, _ in tree) for place in (window.split(":") * 2)[:2])
    with open(path, encoding="ascii") as file:
        head, *lines = file.read().splitlines()
    _, _, bank, locality = head.split(" ")
    for number, line in enumerate(lines, 1):
        if not holds(line, bank, int(locality), tree, range(first, last + 1)):
            print(f"not proved: line {number}")
            return 1
    print(f"checked {len(lines)}")
    return 0


if __name__ == "__main__":
    sys.exit(main(*sys.argv[1:]))
