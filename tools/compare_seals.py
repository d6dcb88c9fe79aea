#!/usr/bin/env python3
"""Compares sealed records with another implementation, in both directions, on random inputs.

Usage: tools/compare_seals.py PROGRAM [COUNT [SEED]]

PROGRAM is the built program of the crate cipher_check. Of COUNT random records (1000 if not given) each is sealed by
the program and by this script, where it is of revision 2; each, of either revision, is opened by both; and each is
opened once more with one bit changed, which the program must refuse. The other implementation is the Python package
`cryptography`; without it nothing is compared, and the script says so.
"""

import random
import struct
import subprocess
import sys

try:
    from cryptography.hazmat.primitives.ciphers import Cipher, algorithms, modes
    from cryptography.hazmat.primitives.cmac import CMAC
except ImportError:
    print("skipped: the Python package cryptography isn't here")
    sys.exit(0)

FLAGS = [0, 1, 2, 3, 8, 9, 10, 11]
KEY_BYTES = [byte for byte in range(0x21, 0x7F) if chr(byte) not in '*/?:;"|<>\\']


def cmac(key, message):
    mac = CMAC(algorithms.AES(key))
    mac.update(message)
    return mac.finalize()


def derived(root, salt, name):
    return cmac(root, b"\x01" + salt + name + b"\x00\x00\x80")


def in_counter_mode(root, name, vector, text):
    counter = vector.to_bytes(8, "big") + bytes(8)
    cipher = Cipher(algorithms.AES(derived(root, b"ENC", name)), modes.CTR(counter)).encryptor()
    return cipher.update(text) + cipher.finalize()


def head_of(revision, size, flags, vector, prior):
    front = struct.pack("<HHII", 20 * revision, revision, size, flags) + vector.to_bytes(8, "big")
    if revision == 1:
        return front
    return front + struct.pack("<I", 0 if prior is None else 1) + (prior or bytes(16))


def sealed(revision, root, name, flags, number, prior, value):
    has_vector = flags != 0 if revision == 2 else flags & 2 != 0
    vector = number if has_vector else 0
    head = head_of(revision, len(value), flags, vector, prior)
    stored = in_counter_mode(root, name, vector, value) if flags & 2 else value
    return head + stored + cmac(derived(root, b"AUTH", name), head + name + stored)


def opened(root, name, record):
    """The metadata's size, the flags, the prior and the value of a record, as the program answers them."""
    size, revision, length, flags = struct.unpack("<HHII", record[:12])
    vector = int.from_bytes(record[12:20], "big")
    prior = record[24:40] if revision == 2 and record[20] == 1 else None
    stored, tag = record[size : size + length], record[size + length :]
    assert tag == cmac(derived(root, b"AUTH", name), record[:size] + name + stored)
    value = in_counter_mode(root, name, vector, stored) if flags & 2 else stored
    return f"{size} {flags} {prior.hex() if prior else '-'} {value.hex() or '-'}"


def drawn_name(chance):
    while True:
        name = bytes(chance.choices(KEY_BYTES, k=chance.choice([1, 2, 8, 15, 16, 17, 32, 100, 128])))
        if name != b"TDBS":
            return name


def main():
    program = sys.argv[1]
    count = int(sys.argv[2]) if len(sys.argv) > 2 else 1000
    chance = random.Random(int(sys.argv[3]) if len(sys.argv) > 3 else None)
    lines, wanted, ours = [], [], []
    for index in range(count):
        root, name, flags = chance.randbytes(16), drawn_name(chance), FLAGS[index % 8]
        # every eighth number or so is at an end of its 64 bits
        number = chance.choice([0, 2**64 - 1]) if chance.random() < 0.125 else chance.getrandbits(64)
        value = chance.randbytes(chance.choice([0, 1, 15, 16, 17, chance.randint(0, 300)]))
        revision = chance.choice([1, 2])
        prior = chance.randbytes(16) if revision == 2 and chance.random() < 0.5 else None
        record = sealed(revision, root, name, flags, number, prior, value)
        text, cut = name.decode(), chance.randint(0, len(value))
        if revision == 2:
            shown = prior.hex() if prior else "-"
            lines.append(f"seal {root.hex()} {text} {flags} {number} {shown} {cut} {value.hex() or '-'}\n")
            wanted.append(record.hex())
            ours.append((len(lines) - 1, root, name, flags, prior, value))
        lines.append(f"open {root.hex()} {text} {cut} {record.hex()}\n")
        wanted.append(opened(root, name, record))
        place = chance.randrange(len(record))
        changed = record[:place] + bytes([record[place] ^ 1 << chance.randrange(8)]) + record[place + 1 :]
        lines.append(f"open {root.hex()} {text} {cut} {changed.hex()}\n")
        wanted.append("refused")
    run = subprocess.run([program], input="".join(lines), capture_output=True, text=True)
    answers = run.stdout.splitlines()
    if run.returncode != 0 or len(answers) != len(lines):
        sys.exit(f"the program ended with {run.returncode} after {len(answers)} answers: {run.stderr}")
    for line, answer, want in zip(lines, answers, wanted):
        if answer != want:
            sys.exit(f"on {line}the program answers {answer}\nand the other one {want}")
    # what the program sealed is opened here
    for place, root, name, flags, prior, value in ours:
        want = f"40 {flags} {prior.hex() if prior else '-'} {value.hex() or '-'}"
        if opened(root, name, bytes.fromhex(answers[place])) != want:
            sys.exit(f"what the program sealed on {lines[place]}opens otherwise")
    print(f"{count} records, {len(lines)} lines, no difference")


main()
