#!/usr/bin/env python3
"""Compares replays of random scripts with a model of the store in Python (store_model.py).

usage: compare_replays.py PROGRAM SCRIPTS [FIRST]
       compare_replays.py image SCRIPT P:E:U [IMAGE]

Each random script, with its geometry, hash bits, clients, power cuts and mounts, is replayed by PROGRAM over an erased
image, over random bytes, or over an image that an earlier case left. The replies must be those of the model. Without a
power cut the image must have the model's bytes. A write that fails must stand behind a cut; from then on the replies
and the written image must be those of the map before the call or of the map behind it. FIRST is the number of the first
script, 0 if not given. The second form writes the image that the model makes of one script without cuts over IMAGE, or
over an erased image.
"""
import copy
import os
import random
import subprocess
import sys
import tempfile

from store_model import Geometry, Held, Log, Store

GEOMETRIES = [(8, 4096, 16), (8, 4096, 1), (32, 512, 1), (1, 256, 2), (1, 4096, 1), (4, 64, 8), (256, 1024, 2)]
KEYS = ["a", "b", "cfg.x", "cfg.y", "~!@", "k" * 128]
WRONG_KEYS = ["k" * 129, "a/b", "TDBS"]
WRITING = {"set", "start", "add", "finish", "remove", "reset"}
STOPPED, FAULT = "error 12 stopped", "error 14 write-fault"


def random_size(pick, geometry):
    return pick.choice([0, 1, 2, 7, 30, pick.randrange(100), pick.randrange(geometry.room + 2)])


def random_call(pick, geometry, begun):
    """A call, mostly one that the client may make now, and what is left of its set in pieces then."""
    key = pick.choice(KEYS if pick.random() < 0.95 else WRONG_KEYS)
    flags = pick.choice(["w", "c", "wcr"]) if pick.random() < 0.04 else "-"
    if begun is not None and pick.random() < 0.5:
        if begun == 0 or pick.random() < 0.2:
            return pick.choice(["finish", "finish", "finish", "abort"]), None
        size = begun if pick.random() < 0.5 else pick.randrange(begun + 2)
        return f"add {pick.randbytes(size).hex() or '-'}", max(0, begun - size)
    verb = pick.choice(["get", "get", "part", "info", "set", "set", "set", "remove", "start", "open", "next", "next", "close", "finish"])
    if verb == "set":
        return f"set {key} {pick.randbytes(random_size(pick, geometry)).hex() or '-'} {flags}", begun
    if verb == "start":
        size = random_size(pick, geometry)
        return f"start {key} {size} {flags}", size if begun is None else begun
    if verb == "part":
        return f"part {key} {pick.choice([0, 1, 5, 99])} {pick.choice([0, 1, 40, 4_294_967_295])}", begun
    if verb == "open":
        return f"open {pick.randrange(6)} {pick.choice(['', 'cfg.', 'a', 'TDBS', 'k*', 'x/'])}*", begun
    if verb in ("next", "close"):
        return f"{verb} {pick.randrange(6)}", begun
    if verb == "finish":
        return pick.choice(["finish", "abort", "add 00", "reset"]), None
    return f"{verb} {key}", begun


def random_script(pick, geometry):
    clients, cuts = pick.choice([1, 1, 2, 4, 16]), pick.random() < 0.5
    lines, begun = [], {}
    for _ in range(pick.choice([0, 1, 5, 50, 400])):
        draw = pick.random()
        if cuts and draw < 0.03:
            pattern = pick.choice(["none", "half", "zero", "all", f"mix:{pick.randrange(1 << 32)}"])
            lines.append(f"0 cut p:{pick.choice([1, 2, 3, 5, 8, 30])}:{pattern}")
        elif draw < (0.1 if cuts else 0.02):
            lines.append("0 mount")
            begun.clear()
        else:
            who = pick.randint(1, clients)
            call, begun[who] = random_call(pick, geometry, begun.get(who))
            lines.append(f"{who} {call}")
    return lines


class Failed(Exception):
    pass


class Run:
    """The stores that the replies so far allow: one, or one for each map that a power cut may have left."""

    def __init__(self, log):
        self.stores, self.doubts, self.is_armed = [Store(log)], None, False

    def mount(self):
        if self.doubts is None:
            for store in self.stores:
                store.mount()
        else:
            self.stores = [Store(Held(log.geometry, log.hash_bits, log.held)) for log in self.doubts]
        self.doubts, self.is_armed = None, False

    def fails(self, who, words):
        """The call failed to write: the maps are those before it and those behind it."""
        if not self.is_armed or words[0] not in WRITING:
            raise Failed("a write fails behind no cut")
        self.doubts = []
        for store in self.stores:
            behind = copy.deepcopy(store)
            if behind.reply(who, *words) == "ok":
                self.doubts += [store.log, behind.log]
        if not self.doubts:
            raise Failed("a write fails in place of a refusal")

    def take(self, who, words, reply):
        if self.doubts is not None:
            if reply != STOPPED:
                raise Failed(f"{reply} by a store that was stopped")
        elif reply == FAULT:
            self.fails(who, words)
        else:
            answers = [(store, store.reply(who, *words)) for store in self.stores]
            self.stores = [store for store, answer in answers if answer == reply]
            if not self.stores:
                raise Failed(f"{reply} in place of {answers[0][1]}")

    def maps(self):
        logs = self.doubts if self.doubts is not None else [store.log for store in self.stores]
        return [log.held for log in logs]


def replies_of(lines, printed, by_client):
    """The reply to each line that is no cut, in the order of the lines, from what was printed."""
    called = [int(line.split(" ")[0]) for line in lines if not line.startswith("0 cut")]
    order = sorted(range(len(called)), key=lambda place: called[place]) if by_client else range(len(called))
    replies, seen = [None] * len(called), {}
    if len(printed) != len(called):
        raise Failed(f"{len(printed)} replies to {len(called)} calls")
    for place, line in zip(order, printed):
        who = called[place]
        seen[who] = seen.get(who, 0) + 1
        front = f"{who} {seen[who]} "
        if not line.startswith(front):
            raise Failed(f"{line} in place of a reply {front}")
        replies[place] = line[len(front) :]
    return iter(replies)


def check(lines, log, printed, by_client, written):
    run, replies = Run(log), replies_of(lines, printed, by_client)
    for line in lines:
        who, *words = line.split(" ")
        if words[0] == "cut":
            run.is_armed = True
        elif words[0] == "mount":
            run.mount()
            if next(replies) != "ok":
                raise Failed("a mount is refused")
        else:
            run.take(int(who), words, next(replies))
    found = Log(log.geometry, written, log.hash_bits).held
    if found not in run.maps():
        raise Failed("the image holds another map")
    if not any(line.startswith("0 cut") for line in lines) and written != run.stores[0].log.image():
        raise Failed("the image has other bytes")


def first_image(pick, geometry, kept):
    draw = pick.random()
    if draw < 0.5 and kept.get(geometry.word()):
        return pick.choice(kept[geometry.word()])
    return pick.randbytes(2 * geometry.area) if draw < 0.6 else b"\xff" * (2 * geometry.area)


def words_of(pick, geometry, hash_bits, by_client, image, script):
    """The words of a replay, the options in any order and place, and left out where they are the default."""
    names, options = [image, "-", script], []
    if geometry.word() != "8:4096:16" or pick.random() < 0.5:
        options.append(pick.choice([["--geom", geometry.word()], [f"--geom={geometry.word()}"]]))
    if hash_bits != 32 or pick.random() < 0.5:
        options.append(pick.choice([["--hash-bits", str(hash_bits)], [f"--hash-bits={hash_bits}"]]))
    if by_client:
        options.append(["--by-client"])
    for option in options:
        pick.shuffle(options)
    words = [[name] for name in names]
    for option in options:
        words.insert(pick.randrange(len(words) + 1), option)
    return [word for group in words for word in group]


def compare(program, folder, seed, kept):
    pick = random.Random(seed)
    geometry, hash_bits = Geometry(*pick.choice(GEOMETRIES)), pick.choice([0, 4, 32])
    lines, before, by_client = random_script(pick, geometry), first_image(pick, geometry, kept), pick.random() < 0.2
    image, script = os.path.join(folder, "image"), os.path.join(folder, "script")
    with open(image, "wb") as file:
        file.write(before)
    with open(script, "w") as file:
        file.write("\n".join(lines))
    words = words_of(pick, geometry, hash_bits, by_client, image, script)
    done = subprocess.run([program, "replay", *words], capture_output=True)
    with open(image, "rb") as file:
        written = file.read()
    printed = done.stdout.decode().splitlines()
    if done.returncode == 5 and any(":mix:" in line for line in lines):
        return
    if done.returncode != 0:
        raise Failed(f"status {done.returncode}")
    check(lines, Log(geometry, before, hash_bits), printed, by_client, written)
    kept.setdefault(geometry.word(), []).append(written)


def image_of(script, geometry, before):
    store = Store(Log(geometry, before, 32))
    with open(script) as file:
        for line in file.read().split("\n"):
            who, *words = line.split(" ")
            if words and words[0] == "mount":
                store.mount()
            elif line and not line.startswith("#"):
                store.reply(int(who), *words)
    return store.log.image()


def image_in(words, geometry):
    if not words:
        return b"\xff" * (2 * geometry.area)
    with open(words[0], "rb") as file:
        return file.read()


def main():
    if sys.argv[1] == "image":
        geometry = Geometry(*map(int, sys.argv[3].split(":")))
        sys.stdout.buffer.write(image_of(sys.argv[2], geometry, image_in(sys.argv[4:], geometry)))
        return
    program, scripts = os.path.abspath(sys.argv[1]), int(sys.argv[2])
    first, kept = int(sys.argv[3]) if len(sys.argv) > 3 else 0, {}
    with tempfile.TemporaryDirectory() as folder:
        for seed in range(first, first + scripts):
            try:
                compare(program, folder, seed, kept)
            except Failed as failed:
                sys.exit(f"script {seed}: {failed}")
    print(f"{scripts} scripts: the replies and the images are the model's")


if __name__ == "__main__":
    main()
