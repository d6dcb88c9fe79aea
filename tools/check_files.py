#!/usr/bin/env python3
"""Checks what the built program does to files that the system refuses to read or to write.

usage: check_files.py PROGRAM

Each case runs PROGRAM in a folder of its own on a script that sets a key. Behind it the status, what was printed, the
names in the folder and the bytes of the image must be those that docs/SCRIPT.md states.
"""
import os
import resource
import signal
import subprocess
import sys
import tempfile

ERASED = b"\xff" * 131_072
SCRIPT = b"1 set a 00ff -\n1 get a\n"
REPLIES = b"1 1 ok\n1 2 ok 00ff\n"
NOBODY = 65_534


def limit_files(limit):
    """Lets no file grow past a limit, as `ulimit -f` does. A program that writes at the limit is killed by a signal."""
    signal.signal(signal.SIGXFSZ, signal.SIG_DFL)
    resource.setrlimit(resource.RLIMIT_FSIZE, (limit, limit))


class Case:
    """One run in a folder with an erased image and a script."""

    def __init__(self, program, folder):
        self.program, self.folder = program, folder
        self.write("image", ERASED)
        self.write("script", SCRIPT)
        os.chmod(folder, 0o777)

    def write(self, name, data):
        with open(os.path.join(self.folder, name), "wb") as file:
            file.write(data)

    def image(self):
        with open(os.path.join(self.folder, "image"), "rb") as file:
            return file.read()

    def run(self, words=("replay", "image", "-", "script"), setup=None, output=subprocess.PIPE):
        done = subprocess.run(
            [self.program, *words], cwd=self.folder, stdout=output, preexec_fn=setup, restore_signals=False, check=False
        )
        return done.returncode, done.stdout

    def expect(self, what, found, wanted):
        assert found == wanted, f"{what}: {found!r} in place of {wanted!r}"

    def leaves(self, what, is_written, names=("image", "script")):
        """The folder has these names alone, and the image is the old one or a new one of the same size."""
        self.expect(what, sorted(os.listdir(self.folder)), sorted(names))
        image = self.image()
        self.expect(what, (len(image), image != ERASED), (len(ERASED), is_written))


def as_nobody():
    """Drops the rights of the superuser, whom no permission binds."""
    if os.geteuid() == 0:
        os.setgroups([])
        os.setgid(NOBODY)
        os.setuid(NOBODY)


def written(case):
    case.expect("a run", case.run(), (0, REPLIES))
    case.leaves("a run", True)


def limited(case):
    for limit in (1, 512, 65_536, len(ERASED) - 1):
        case.expect("a limit on the size of files", case.run(setup=lambda: limit_files(limit)), (4, b""))
        case.leaves("a limit on the size of files", False)
    case.expect("a limit of one image", case.run(setup=lambda: limit_files(len(ERASED))), (0, REPLIES))
    case.leaves("a limit of one image", True)


def killed(case):
    status, printed = case.run(setup=lambda: limit_files(0))
    case.expect("a run that is killed", (status, printed), (-signal.SIGXFSZ, b""))
    case.leaves("a run that is killed", False, ("image", "image.vaskeldi-new", "script"))
    case.expect("the run behind it", case.run(), (0, REPLIES))
    case.leaves("the run behind it", True)


def unreadable(case):
    os.chmod(os.path.join(case.folder, "image"), 0)
    case.expect("an image that may not be read", case.run(setup=as_nobody), (4, b""))
    case.leaves("an image that may not be read", False)


def unwritable(case):
    os.chmod(os.path.join(case.folder, "image"), 0o444)
    case.expect("an image that may not be written", case.run(setup=as_nobody), (4, b""))
    case.leaves("an image that may not be written", False)


def closed_folder(case):
    os.chmod(case.folder, 0o555)
    os.chmod(os.path.join(case.folder, "image"), 0o666)
    case.expect("a folder that may not be written", case.run(setup=as_nobody), (4, b""))
    case.leaves("a folder that may not be written", False)
    os.chmod(case.folder, 0o777)


def kept_mode(case):
    path = os.path.join(case.folder, "image")
    os.chmod(path, 0o600)
    case.expect("a private image", case.run(), (0, REPLIES))
    case.expect("the permissions of a private image", os.stat(path).st_mode & 0o7777, 0o600)


def full_output(case):
    with open("/dev/full", "wb") as full:
        status, _ = case.run(output=full)
    case.expect("an output that takes nothing", status, 4)
    case.leaves("an output that takes nothing", True)


def other_words(case):
    case.expect("a word that isn't UTF-8", case.run((b"replay", b"image", b"-", b"\xff")), (1, b"refused: words\n"))
    case.expect("a word more", case.run(("replay", "image", "-", "script", "")), (1, b"refused: words\n"))
    case.leaves("wrong words", False)


def folder_as_a_file(case):
    case.expect("a folder as a script", case.run(("replay", "image", "-", ".")), (4, b""))
    case.expect("a folder as an image", case.run(("replay", ".", "-", "script")), (4, b""))
    case.expect("a file as a folder", case.run(("replay", "script/image", "-", "script")), (4, b""))
    case.leaves("a folder as a file", False)


CASES = [
    written,
    limited,
    killed,
    unreadable,
    unwritable,
    closed_folder,
    kept_mode,
    full_output,
    other_words,
    folder_as_a_file,
]


def main():
    program = os.path.abspath(sys.argv[1])
    for try_case in CASES:
        with tempfile.TemporaryDirectory() as folder:
            try_case(Case(program, folder))
    print(f"{len(CASES)} cases: files are replaced whole or left as they were")


if __name__ == "__main__":
    main()
