"""The machines of the examples: their logs and component files, made from short texts."""

from measured import SEPARATOR, component_text, hash_in, write_firmware_log, write_userspace_log

BANKS, ALL_BANKS = ("sha256", "sha384"), ("sha1", "sha256", "sha384", "sha512")
CRTM, BLOB, VARIABLE, BOOT_ORDER, DRIVER, APPLICATION = 8, 0x80000008, 0x80000001, 0x80000002, 0x80000004, 0x80000003


def digests(data, banks=BANKS):
    return {bank: hash_in(bank, data) for bank in banks}


def measured_as(pcr, kind, text):
    return pcr, kind, digests(text.encode()), text.encode()


def separators():
    return [(pcr, SEPARATOR, digests(bytes(4)), bytes(4)) for pcr in range(8)]


def component(*records):
    """A component file of records (pcr, text)."""
    return component_text([(pcr, digests(text if isinstance(text, bytes) else text.encode())) for pcr, text in records])


def separator_component():
    return component(*((pcr, bytes(4)) for pcr in range(8)))


# ---- a firmware that is locked as it was measured


def firmware_log(version):
    return write_firmware_log(
        [
            measured_as(0, CRTM, f"crtm {version}"),
            measured_as(0, BLOB, f"firmware {version}"),
            measured_as(1, VARIABLE, f"setup {version}"),
            *separators(),
            measured_as(2, DRIVER, "network card 1.9"),
            measured_as(3, VARIABLE, "network card's setup"),
            measured_as(1, BOOT_ORDER, "disk, network"),
        ],
        BANKS,
    )


LOCKS = {
    "firmware.log": firmware_log("4.1"),
    "firmware-new.log": firmware_log("4.2"),
    "userspace.log": b"",
    "certificate": b"a certificate\n",
    "components/300-separator.pcrlock": separator_component(),
}

# ---- two kernels, of which one follows the other

PHASES = ("enter-initrd", "leave-initrd", "sysinit", "ready")
PHASE_FILES = ("750-enter-initrd", "800-leave-initrd", "850-sysinit", "900-ready")


def kernel_log(kernel):
    return write_firmware_log(
        [
            measured_as(0, CRTM, "crtm 4.1"),
            measured_as(0, BLOB, "firmware 4.1"),
            *separators(),
            measured_as(4, APPLICATION, "boot loader 257"),
            measured_as(4, APPLICATION, f"kernel {kernel}"),
        ],
        BANKS,
    )


def booted_log(kernel):
    words = [(11, f"image {kernel}"), *((11, word) for word in PHASES)]
    return write_userspace_log([(pcr, digests(word.encode())) for pcr, word in words])


def kernel_folder(name, kernels):
    """The component files of a machine with these kernels."""
    files = {
        "250-firmware.pcrlock": component((0, "crtm 4.1"), (0, "firmware 4.1")),
        "300-separator.pcrlock": separator_component(),
        "610-boot-loader.pcrlock": component((4, "boot loader 257")),
    }
    for kernel in kernels:
        files[f"650-kernel.pcrlock.d/{kernel}.pcrlock"] = component((4, f"kernel {kernel}"), (11, f"image {kernel}"))
    for file, word in zip(PHASE_FILES, PHASES):
        files[f"{file}.pcrlock"] = component((11, word))
    return {f"{name}/{path}": text for path, text in files.items()}


INDEX, PCRS, OTHER_PIN = "01800100", "0,4,7,11", "03" * 32


def stranger(session, object):
    """What anyone may ask the TPM, in its next session: values of PCRs, the index, and an object without its policy."""
    two = ",".join(hash_in("sha256", data).hex() for data in (b"abc", bytes(4)))
    lines = [
        "pcr-read sha256 4",
        f"nv-read {INDEX}",
        "start-session",
        f"policy-pcr {session} sha256 {PCRS}",
        f"policy-authorize-nv {session} {INDEX}",
        f"policy-or {session} {two}",
        f"unseal {session} {object}",
        f"flush-session {session}",
        f"nv-write {INDEX} {OTHER_PIN} 000b{'00' * 32}",
    ]
    return "".join(f"{line}\n" for line in lines).encode()


KERNELS = {
    **{f"boot-{kernel}/firmware.log": kernel_log(kernel) for kernel in ("6.12", "6.13", "6.66")},
    **{f"boot-{kernel}/userspace.log": booted_log(kernel) for kernel in ("6.12", "6.13", "6.66")},
    **kernel_folder("old", ["6.12"]),
    **kernel_folder("both", ["6.12", "6.13"]),
    **kernel_folder("new", ["6.13"]),
    **kernel_folder("forged", ["6.66"]),
    "stranger.commands": stranger("03000008", "81000001"),
    "stranger-later.commands": stranger("03000012", "81000003"),
}

# ---- a machine of a usual size: 180 firmware records in four banks, 40 userspace records, 30 components

# What each component measures: the PCRs with the number of records of each, and the variants.
USUAL = {
    "200-firmware-code": ({0: 14, 2: 9}, 1),
    "220-firmware-config": ({1: 29, 3: 4}, 1),
    "230-secure-boot-policy": ({7: 6}, 1),
    "240-graphics-card": ({2: 5}, 1),
    "300-separator": ({pcr: 1 for pcr in range(8)}, 1),
    "320-boot-order": ({1: 22}, 1),
    "330-network-card": ({2: 8, 3: 7}, 1),
    "340-storage": ({2: 10, 3: 5}, 1),
    "400-secure-boot-authority": ({7: 8}, 1),
    "420-partitions": ({5: 12}, 1),
    "610-boot-loader": ({4: 2}, 2),
    "620-boot-loader-config": ({5: 6, 12: 1}, 1),
    "630-command-line": ({12: 2}, 1),
    "640-credentials": ({12: 3, 13: 5}, 1),
    "645-extensions": ({13: 5}, 1),
    "650-kernel": ({4: 5, 11: 12}, 3),
    "660-initrd": ({9: 2, 11: 1}, 1),
    "700-exit-boot-services": ({5: 10}, 1),
    "710-microcode": ({0: 4}, 1),
    "720-machine-owner": ({14: 3}, 2),
    "740-tables": ({1: 4}, 1),
    "750-enter-initrd": ({11: 1}, 1),
    "760-volume-key": ({15: 1}, 1),
    "800-leave-initrd": ({11: 1}, 1),
    "820-machine-id": ({15: 1}, 1),
    "830-root-file-system": ({15: 2}, 1),
    "850-sysinit": ({11: 1}, 1),
    "900-ready": ({11: 1}, 1),
    "950-shutdown": ({11: 1}, 1),
    "990-final": ({11: 1}, 1),
}
BOOTED, FIRST_OF_USER, EVENT = "900-ready", 11, 341


# Default options, but for the places of logs and components.
USUAL_SCRIPT = b"""tpm-boot --firmware-log first.firmware.log --userspace-log first.userspace.log
log --firmware-log first.firmware.log --userspace-log first.userspace.log --components components
predict --firmware-log first.firmware.log --userspace-log first.userspace.log --components components
make-policy --firmware-log first.firmware.log --userspace-log first.userspace.log --components components --pin 0101010101010101010101010101010101010101010101010101010101010101
enroll --token disk.token --key 000102030405060708090a0b0c0d0e0f101112131415161718191a1b1c1d1e1f
unseal --token disk.token
tpm-boot --firmware-log next.firmware.log --userspace-log next.userspace.log
unseal --token disk.token
make-policy --firmware-log next.firmware.log --userspace-log next.userspace.log --components components
make-policy --firmware-log next.firmware.log --userspace-log next.userspace.log --components components --joint
unseal --token disk.token
tpm-boot --firmware-log other.firmware.log --userspace-log other.userspace.log
unseal --token disk.token
tpm-boot --firmware-log first.firmware.log --userspace-log first.userspace.log
unseal --token disk.token
"""


def usual_records(name, variant):
    pcrs, _ = USUAL[name]
    return [(pcr, f"{name} {variant} {pcr} {number}") for pcr, count in pcrs.items() for number in range(count)]


def usual_boot(variants):
    """The records of a boot in which some components have another variant than their first."""
    booted = [it for name in sorted(USUAL) if name <= BOOTED for it in usual_records(name, variants.get(name, 0))]
    events = ((pcr, APPLICATION if pcr == 4 else SEPARATOR if text.startswith("300") else BLOB, text) for pcr, text in booted)
    firmware = [(pcr, kind, digests(text.encode(), ALL_BANKS), (f"{text}\n" * 20).encode()[:EVENT]) for pcr, kind, text in events if pcr < FIRST_OF_USER]
    user = [(pcr, digests(text.encode(), ALL_BANKS)) for pcr, text in booted if pcr >= FIRST_OF_USER]
    return write_firmware_log(firmware, ALL_BANKS), write_userspace_log(user)


def usual_folder(name):
    """A component's files: one, or a folder of its variants."""
    texts = [component_text([(pcr, digests(text.encode(), ALL_BANKS)) for pcr, text in usual_records(name, variant)]) for variant in range(USUAL[name][1])]
    if len(texts) == 1:
        return {f"components/{name}.pcrlock": texts[0]}
    return {f"components/{name}.pcrlock.d/{variant}.pcrlock": text for variant, text in enumerate(texts)}


def usual_machine():
    files = {}
    for boot, variants in (("first", {}), ("next", {"650-kernel": 2, "610-boot-loader": 1}), ("other", {"650-kernel": 7})):
        files[f"{boot}.firmware.log"], files[f"{boot}.userspace.log"] = usual_boot(variants)
    for name in USUAL:
        files.update(usual_folder(name))
    return {**files, "script": USUAL_SCRIPT}


MACHINES = {"locks": LOCKS, "kernels": KERNELS, "usual": usual_machine()}
