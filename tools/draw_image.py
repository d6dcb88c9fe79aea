#!/usr/bin/env python3
"""Draws the image of a device: its areas, its erase units, and what stands in them.

usage: draw_image.py IMAGE [--geom P:E:U] > image.svg

P is the program unit, E the erase unit and U the number of erase units in an area; without --geom they are 8, 4096
and 16. The image is read by docs/FORMAT.md and nothing else: no code of the store is used.
"""
import argparse
import html
import struct
import sys
import zlib

REMOVED = 1 << 31
FORBIDDEN = b'*/?:;"|<>\\'
WIDTH = 960
HEIGHT = 34
COLOURS = {
    "master": "#4c6a9c",
    "live": "#5a9e6f",
    "write-once": "#2f7d6d",
    "replaced": "#c9c3b0",
    "remove": "#b98a8a",
    "stray": "#d9a441",
    "erased": "#ffffff",
    "passive": "#e4e2dc",
}


class Image:
    """The bytes of a device, with its geometry."""

    def __init__(self, data, unit, erase, units):
        self.data = data
        self.unit = unit
        self.erase = erase
        self.area_size = erase * units

    def up(self, size):
        return (size + self.unit - 1) // self.unit * self.unit

    def record_at(self, place, end):
        """The flags, the key, the value and the size of the record that stands at a place, or None."""
        header = self.data[place : place + 24]
        if len(header) < 24 or place + 24 > end:
            return None
        magic, size, revision, flags, key_size, reserved, value_size, crc = struct.unpack("<4sHHIHHII", header)
        if (magic, size, revision, reserved) != (b"KVR1", 24, 1, 0) or flags not in (0, 1, REMOVED):
            return None
        if not 1 <= key_size <= 128 or value_size > (0 if flags == REMOVED else 65_592):
            return None
        behind = place + self.up(24)
        whole = self.up(24) + self.up(key_size + value_size)
        payload = self.data[behind : behind + key_size + value_size]
        padding = self.data[place + 24 : behind] + self.data[behind + len(payload) : place + whole]
        if place + whole > end or padding.strip(b"\xff"):
            return None
        if zlib.crc32(header[:20] + payload) ^ 0xFFFFFFFF != crc:
            return None
        return flags, payload[:key_size], payload[key_size:], whole

    def version_of(self, base):
        """The version of a valid area, or None."""
        record = self.record_at(base, base + self.area_size)
        if record is None or record[0] != 0 or record[1] != b"TDBS" or len(record[2]) != 8:
            return None
        version, revision, zero = struct.unpack("<HHI", record[2])
        return version if (revision, zero) == (1, 0) else None

    def active(self):
        """The number of the active area, or None."""
        first, second = self.version_of(0), self.version_of(self.area_size)
        if second is None:
            return None if first is None else 0
        if first is None:
            return 1
        return 1 if second == (first + 1) % 65_536 else 0

    def records_of(self, base):
        """The place, the size, the flags and the key of each record behind an area's master, and where they end."""
        place = base + self.up(24) + self.up(12)
        end = base + self.area_size
        records = []
        while True:
            record = self.record_at(place, end)
            if record is None or not is_key(record[1]):
                return records, place
            records.append((place, record[3], record[0], record[1]))
            place += record[3]


def is_key(key):
    return key != b"TDBS" and all(0x21 <= byte <= 0x7E and byte not in FORBIDDEN for byte in key)


def parts_of(image, number):
    """Each part of an area: where it begins and ends, what it is, and its label."""
    base = number * image.area_size
    end = base + image.area_size
    version = image.version_of(base)
    parts = []
    place = base
    if version is not None:
        records, place = image.records_of(base)
        first = records[0][0] if records else place
        parts.append((base, first, "master", f"v{version}"))
        last = {key: at for at, _, _, key in records}
        for at, size, flags, key in records:
            if flags == REMOVED:
                kind = "remove"
            elif last[key] != at:
                kind = "replaced"
            else:
                kind = "write-once" if flags == 1 else "live"
            parts.append((at, at + size, kind, key.decode("ascii")))
    return parts + rest_of(image.data, place, end)


def rest_of(data, place, end):
    """What lies behind the records: runs of erased bytes, and of others."""
    parts = []
    while place < end:
        is_erased = data[place] == 0xFF
        stop = place
        while stop < end and (data[stop] == 0xFF) == is_erased:
            stop += 1
        parts.append((place, stop, "erased" if is_erased else "stray", ""))
        place = stop
    return parts


def box(x, y, width, height, fill, title):
    return (
        f'<rect x="{x:.2f}" y="{y}" width="{max(width, 0.4):.2f}" height="{height}" fill="{fill}" stroke="#555"'
        f' stroke-width="0.4"><title>{html.escape(title)}</title></rect>'
    )


def text(x, y, size, words, anchor="start", fill="#222"):
    place = f'x="{x:.2f}" y="{y}" font-size="{size}" text-anchor="{anchor}" fill="{fill}"'
    return f"<text {place}>{html.escape(words)}</text>"


def draw_area(image, number, top):
    """An area as one bar, with the borders of its erase units below it."""
    base = number * image.area_size
    scale = WIDTH / image.area_size
    is_active = image.active() == number
    lines = [text(10, top - 6, 12, f"area {number}, from {base}" + (", active" if is_active else ""))]
    for start, stop, kind, label in parts_of(image, number):
        x, width = 10 + (start - base) * scale, (stop - start) * scale
        dim = not is_active and kind in ("live", "write-once", "replaced", "remove")
        lines.append(box(x, top, width, HEIGHT, COLOURS["passive" if dim else kind], f"{start} to {stop}: {kind} {label}"))
        if label and width > 7 * len(label):
            ink = "#222" if dim or kind == "replaced" else "#fff"
            lines.append(text(x + width / 2, top + HEIGHT / 2 + 4, 11, label, "middle", ink))
    for unit in range(image.area_size // image.erase + 1):
        x = 10 + unit * image.erase * scale
        lines.append(f'<line x1="{x:.2f}" y1="{top + HEIGHT}" x2="{x:.2f}" y2="{top + HEIGHT + 7}" stroke="#333"/>')
    return lines


def draw_legend(top):
    lines = []
    for at, (kind, colour) in enumerate(COLOURS.items()):
        lines.append(box(10 + at * 118, top, 12, 12, colour, kind))
        lines.append(text(26 + at * 118, top + 10, 11, kind))
    return lines


def draw(image):
    lines = draw_area(image, 0, 30) + draw_area(image, 1, 100) + draw_legend(160)
    head = f'<svg xmlns="http://www.w3.org/2000/svg" width="{WIDTH + 20}" height="185" font-family="sans-serif">'
    ground = f'<rect width="{WIDTH + 20}" height="185" fill="#fbfaf7"/>'
    return "\n".join([head, ground, *lines, "</svg>"])


def geometry(words):
    unit, erase, units = (int(word) for word in words.split(":"))
    if unit < 1 or erase < 1 or units < 1 or erase % unit:
        raise argparse.ArgumentTypeError(f"no geometry: {words}")
    return unit, erase, units


def main():
    parser = argparse.ArgumentParser(description="Draws the image of a device.")
    parser.add_argument("image")
    parser.add_argument("--geom", type=geometry, default=(8, 4_096, 16))
    words = parser.parse_args()
    with open(words.image, "rb") as file:
        data = file.read()
    image = Image(data, *words.geom)
    if len(data) != 2 * image.area_size:
        sys.exit(f"draw_image.py: {len(data)} bytes, where the geometry has {2 * image.area_size}")
    print(draw(image))


if __name__ == "__main__":
    main()
