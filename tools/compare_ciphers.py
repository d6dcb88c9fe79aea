#!/usr/bin/env python3
"""Compares counter mode and CMAC with another implementation on random inputs.

Usage: tools/compare_ciphers.py PROGRAM [COUNT [SEED]]

PROGRAM is the built program of the crate cipher_check. COUNT inputs (1000 if not given) have random keys,
counter blocks and texts of 0 to 300 bytes, cut in two at a random place. The other implementation is the
Python package `cryptography`; without it nothing is compared, and the script says so.
"""

import random
import subprocess
import sys

try:
    from cryptography.hazmat.primitives.ciphers import Cipher, algorithms, modes
    from cryptography.hazmat.primitives.cmac import CMAC
except ImportError:
    print("skipped: the Python package cryptography isn't here")
    sys.exit(0)


def expected(key, start, text):
    encryptor = Cipher(algorithms.AES(key), modes.CTR(start)).encryptor()
    cipher_text = encryptor.update(text) + encryptor.finalize()
    mac = CMAC(algorithms.AES(key))
    mac.update(text)
    return f"{cipher_text.hex() or '-'} {mac.finalize().hex()}"


def main():
    program = sys.argv[1]
    count = int(sys.argv[2]) if len(sys.argv) > 2 else 1000
    chance = random.Random(int(sys.argv[3]) if len(sys.argv) > 3 else None)
    lines, wanted = [], []
    for number in range(count):
        key, text = chance.randbytes(16), chance.randbytes(chance.randint(0, 300))
        # every eighth counter block is near its end, so that the counter wraps
        start = chance.randbytes(16)
        if number % 8 == 0:
            start = bytes([255] * 15 + [255 - chance.randint(0, 15)])
        cut = chance.randint(0, len(text))
        lines.append(f"{key.hex()} {start.hex()} {cut} {text.hex() or '-'}\n")
        wanted.append(expected(key, start, text))
    run = subprocess.run([program], input="".join(lines), capture_output=True, text=True)
    answers = run.stdout.splitlines()
    if run.returncode != 0 or len(answers) != count:
        sys.exit(f"the program ended with {run.returncode} after {len(answers)} answers: {run.stderr}")
    for line, answer, want in zip(lines, answers, wanted):
        if answer != want:
            sys.exit(f"on {line}the program answers {answer}\nand the other one {want}")
    print(f"{count} inputs, no difference")


main()
