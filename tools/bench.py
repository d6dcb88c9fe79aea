#!/usr/bin/env python3
"""Times the kernels of the store, and whole replays, beside peers on the same machine.

usage: bench.py KV_BENCH VASKELDI [--peers FOLDER] [--runs N]

KV_BENCH and VASKELDI are the built programs of the crates kv_bench and kv_cli. A line is printed for each kernel
(MB/s) and for each script (microseconds a call, the start of the program and the image included), with the peer's
figure and the ratio. The best of N runs counts (5 if not given), and ours and the peer's take turns.

Peers: zlib and the package `cryptography` of Python, where they are there; and, where FOLDER has them and a C compiler
is there, peers.c (Mbed TLS and zlib) and logstore.c, a store in plain C that replays the same scripts, whose replies and
images must be ours. A peer that is missing is skipped.
"""
import argparse
import os
import random
import shutil
import subprocess
import sys
import tempfile
import time
import zlib

CIPHER_KEY = bytes.fromhex("2b7e151628aed2a6abf7158809cf4f3c")
START = bytes.fromhex("f0f1f2f3f4f5f6f7f8f9fafbfcfdfeff")
SIZE, ROUNDS = 1 << 20, 64
AREA, HEADER, CALLS = 65_536, 24, 8_192


def run(words):
    return subprocess.run(words, capture_output=True, check=True).stdout


def seconds_of(call):
    begun = time.perf_counter()
    answer = call()
    return time.perf_counter() - begun, answer


def best(runs, *calls):
    """The least seconds of each call, which take turns, and their last answers."""
    times, answers = [[] for _ in calls], [None] * len(calls)
    for _ in range(runs):
        for place, call in enumerate(calls):
            taken, answers[place] = seconds_of(call)
            times[place].append(taken)
    return [min(one) for one in times], answers


def compiled(folder, name, libraries, into):
    """The program of a peer in C, or None where it can't be built here."""
    source = os.path.join(folder or "", name + ".c")
    compiler = shutil.which("cc")
    if folder is None or compiler is None or not os.path.exists(source):
        return None
    program = os.path.join(into, name)
    built = subprocess.run([compiler, "-O2", source, "-o", program] + libraries, capture_output=True)
    return program if built.returncode == 0 else None


# ---- kernels


def peer_kernel(kernel):
    """The same work by a peer in Python's packages, as a function that gives its checksum, or None."""
    data = bytes(SIZE)
    if kernel == "crc":

        def crc():
            value = 0
            for _ in range(ROUNDS):
                value = zlib.crc32(data, value)
            return f"{value ^ 0xFFFFFFFF:032x}"

        return crc
    try:
        from cryptography.hazmat.primitives.ciphers import Cipher, algorithms, modes
        from cryptography.hazmat.primitives.cmac import CMAC
    except ImportError:
        return None

    def cipher():
        buffer, mac = data, CMAC(algorithms.AES(CIPHER_KEY))
        if kernel == "ctr":
            encryptor = Cipher(algorithms.AES(CIPHER_KEY), modes.CTR(START)).encryptor()
            for _ in range(ROUNDS):
                buffer = encryptor.update(buffer)
            mac.update(buffer)
        else:
            for _ in range(ROUNDS):
                mac.update(buffer)
        return mac.finalize().hex()

    return cipher


def rate(seconds):
    return SIZE * ROUNDS / seconds / 1e6


def kernel_lines(program, runs):
    for kernel in ("ctr", "cmac", "crc"):
        ours = lambda: run([program, kernel, str(SIZE), str(ROUNDS)]).decode().strip()
        peer = peer_kernel(kernel)
        if peer is None:
            times, _ = best(runs, ours)
            print(f"{kernel}: {rate(times[0]):.0f} MB/s, no peer here")
            continue
        times, answers = best(runs, ours, peer)
        if answers[0] != answers[1]:
            sys.exit(f"{kernel}: the checksum is {answers[0]}, the peer's {answers[1]}")
        print(f"{kernel}: {rate(times[0]):.0f} MB/s, the peer {rate(times[1]):.0f}, ratio {times[1] / times[0]:.2f}")


# ---- replays


def record_size(key, size):
    return HEADER + (len(key) + size + 7) // 8 * 8


def mixed_script(draw, keys):
    """Sets as long as there is room without a collection, gets and looks at values, over so many keys."""
    names = [f"key.{number:04d}" for number in range(keys)]
    lines, room = [], AREA - 40
    for number in range(CALLS):
        key = names[number] if number < keys else draw.choice(names)
        size = draw.randrange(1, 24)
        if (number < keys or draw.random() < 0.1) and record_size(key, size) <= room:
            room -= record_size(key, size)
            lines.append(f"1 set {key} {draw.randbytes(size).hex()} -")
        else:
            lines.append(f"1 {draw.choice(['get', 'get', 'info'])} {key}")
    return lines


def long_script(draw):
    """One value of 30,000 bytes, read again and again."""
    return [f"1 set blob {draw.randbytes(30_000).hex()} -"] + ["1 get blob"] * 511


def replay_lines(program, peer, runs, folder):
    draw = random.Random(20)
    scripts = [("24 keys", mixed_script(draw, 24)), ("1,000 keys", mixed_script(draw, 1_000)), ("30,000 bytes", long_script(draw))]
    for name, lines in scripts:
        script = os.path.join(folder, "script")
        with open(script, "w") as file:
            file.write("".join(line + "\n" for line in lines))
        images = [os.path.join(folder, f"image{number}") for number in range(2)]

        def turn(image, words):
            def call():
                with open(image, "wb") as file:
                    file.write(b"\xff" * (2 * AREA))
                replies = run(words)
                with open(image, "rb") as file:
                    return replies, file.read()

            return call

        ours = turn(images[0], [program, "replay", images[0], "-", script])
        others = [] if peer is None else [turn(images[1], [peer, images[1], script])]
        times, answers = best(runs, ours, *others)
        line = f"{name}: {times[0] / len(lines) * 1e6:.2f} microseconds a call"
        if others:
            if answers[0] != answers[1]:
                sys.exit(f"{name}: the peer has other replies or another image")
            line += f", the peer {times[1] / len(lines) * 1e6:.2f}, ratio {times[0] / times[1]:.2f}"
        print(line)


def main():
    parser = argparse.ArgumentParser(description="Times kernels and replays beside peers.")
    parser.add_argument("bench")
    parser.add_argument("vaskeldi")
    parser.add_argument("--peers")
    parser.add_argument("--runs", type=int, default=5)
    words = parser.parse_args()
    with tempfile.TemporaryDirectory() as folder:
        kernel_lines(words.bench, words.runs)
        peers = compiled(words.peers, "peers", ["-lmbedcrypto", "-lz"], folder)
        if peers is not None:
            print(run([peers]).decode(), end="")
        replay_lines(words.vaskeldi, compiled(words.peers, "logstore", [], folder), words.runs, folder)


main()
