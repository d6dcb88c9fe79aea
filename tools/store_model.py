"""A model of a plain store: its map and rules, and the bytes of its image, by docs/FORMAT.md and docs/SCRIPT.md."""
import struct
import zlib

WRITE_ONCE, REMOVED = 1, 1 << 31
HEADER = 24
LARGEST = 65_592


class Geometry:
    """A program unit, an erase unit, and how many of these an area has."""

    def __init__(self, prog, erase, units):
        self.prog, self.erase, self.units = prog, erase, units
        self.area = erase * units
        self.first = self.up(HEADER) + self.up(12)
        self.room = self.area - self.first

    def up(self, size):
        return -(-size // self.prog) * self.prog

    def record(self, key, size):
        return self.up(HEADER) + self.up(len(key) + size)

    def word(self):
        return f"{self.prog}:{self.erase}:{self.units}"


def crc(data):
    return zlib.crc32(data) ^ 0xFFFFFFFF


def is_name(word, most):
    return len(word) <= most and all(0x21 <= byte <= 0x7E and byte not in b'*/?:;"|<>\\' for byte in word)


def is_key(word):
    return len(word) >= 1 and is_name(word, 128) and word != b"TDBS"


def record_of(geometry, flags, key, value):
    """The bytes of a record, the spaces up to whole program units 0xFF."""
    front = struct.pack("<4sHHIHHI", b"KVR1", HEADER, 1, flags, len(key), 0, len(value))
    header = front + struct.pack("<I", crc(front + key + value))
    payload = key + value
    return header.ljust(geometry.up(HEADER), b"\xff") + payload.ljust(geometry.up(len(payload)), b"\xff")


def record_at(geometry, area, place):
    """The flags, key, value and size of the record at a place of an area, or None."""
    header = area[place : place + HEADER]
    if len(header) < HEADER:
        return None
    magic, size, revision, flags, key_size, reserved, value_size, _ = struct.unpack("<4sHHIHHII", header)
    if (magic, size, revision, reserved) != (b"KVR1", HEADER, 1, 0) or flags not in (0, WRITE_ONCE, REMOVED):
        return None
    if not 1 <= key_size <= 128 or value_size > (0 if flags == REMOVED else LARGEST):
        return None
    start = place + geometry.up(HEADER)
    key, value = area[start : start + key_size], area[start + key_size : start + key_size + value_size]
    record = record_of(geometry, flags, key, value)
    return (flags, key, value, len(record)) if area[place : place + len(record)] == record else None


def version_of(geometry, area):
    """The version of an area's master record, or None."""
    found = record_at(geometry, area, 0)
    if found is None or found[:2] != (0, b"TDBS") or len(found[2]) != 8:
        return None
    version, revision, zero = struct.unpack("<HHI", found[2])
    return version if (revision, zero) == (1, 0) else None


def master_of(geometry, version):
    return record_of(geometry, 0, b"TDBS", struct.pack("<HHI", version, 1, 0))


def applied(held, flags, key, value):
    """The map with one record more."""
    held = dict(held)
    if flags == REMOVED:
        held.pop(key, None)
    else:
        held[key] = (flags, value)
    return held


class Log:
    """An image that was mounted: its active area and the place behind the last record."""

    def __init__(self, geometry, image, hash_bits):
        self.geometry, self.hash_bits = geometry, hash_bits
        self.areas = [bytearray(image[: geometry.area]), bytearray(image[geometry.area :])]
        self.mount()

    def mount(self):
        first, second = (version_of(self.geometry, bytes(area)) for area in self.areas)
        if first is None and second is None:
            self.areas[0][:] = master_of(self.geometry, 1).ljust(self.geometry.area, b"\xff")
            first = 1
        second_follows = first is not None and second == (first + 1) % 65_536
        self.active = int(second is not None and (first is None or second_follows))
        self.version = second if self.active else first
        area, self.end, self.held = bytes(self.areas[self.active]), self.geometry.first, {}
        while (found := record_at(self.geometry, area, self.end)) and is_key(found[1]):
            self.held = applied(self.held, *found[:3])
            self.end += found[3]

    def image(self):
        return bytes(self.areas[0] + self.areas[1])

    def is_clean(self):
        return set(self.areas[self.active][self.end :]) <= {0xFF}

    def order(self, key):
        return crc(key) & ((1 << self.hash_bits) - 1), key

    def append(self, flags, key, value):
        record = record_of(self.geometry, flags, key, value)
        self.areas[self.active][self.end : self.end + len(record)] = record
        self.end += len(record)
        self.held = applied(self.held, flags, key, value)

    def collect(self, held):
        """The records of this map alone, in the other area."""
        self.active, self.version = 1 - self.active, (self.version + 1) % 65_536
        self.areas[self.active][:] = master_of(self.geometry, self.version).ljust(self.geometry.area, b"\xff")
        self.end, self.held = self.geometry.first, {}
        for key in sorted(held, key=self.order):
            self.append(held[key][0], key, held[key][1])

    def has_space(self, size):
        return self.is_clean() and self.end + size <= self.geometry.area

    def make_room(self, key, size):
        if not self.has_space(self.geometry.record(key, size)):
            self.collect(self.held)

    def remove(self, key):
        if self.has_space(self.geometry.record(key, 0)):
            self.append(REMOVED, key, b"")
        else:
            self.collect(applied(self.held, REMOVED, key, b""))

    def feed(self, payload):
        """Programs the whole units of what was given of a payload so far."""
        whole = len(payload) // self.geometry.prog * self.geometry.prog
        place = self.end + self.geometry.up(HEADER)
        self.areas[self.active][place : place + whole] = payload[:whole]


class Held(Log):
    """The map of an image of which no more is known, as behind a power cut."""

    def __init__(self, geometry, hash_bits, held):
        self.geometry, self.hash_bits, self.held = geometry, hash_bits, held

    def mount(self):
        pass

    def append(self, flags, key, value):
        self.held = applied(self.held, flags, key, value)

    def collect(self, held):
        self.held = held

    def make_room(self, key, size):
        pass

    def remove(self, key):
        self.append(REMOVED, key, b"")

    def feed(self, payload):
        pass


class Store:
    """The replies to the calls of clients, by the rules of a plain store."""

    def __init__(self, log):
        self.log = log
        self.open_set, self.iterators = None, {}

    def mount(self):
        self.open_set, self.iterators = None, {}
        self.log.mount()

    def reply(self, who, verb, *words):
        return getattr(self, verb)(who, *words)

    def busy(self, who):
        if self.open_set is None:
            return None
        owner = self.open_set["who"]
        return "error 9 set-open" if owner == who else f"error 11 busy {owner}"

    def looked_up(self, word):
        key = word.encode()
        if not is_key(key):
            return key, "error 2 invalid-key"
        return key, None if key in self.log.held else "error 1 not-found"

    def read(self, word, offset, count):
        key, refused = self.looked_up(word)
        if refused:
            return refused
        value = self.log.held[key][1]
        if offset > len(value):
            return "error 4 invalid-size"
        return "ok " + (value[offset:][:count].hex() or "-")

    def get(self, who, word):
        return self.read(word, 0, LARGEST)

    def part(self, who, word, offset, count):
        return self.read(word, int(offset), int(count))

    def info(self, who, word):
        key, refused = self.looked_up(word)
        if refused:
            return refused
        flags, value = self.log.held[key]
        return f"ok {len(value)} {'w' if flags else '-'}"

    def used(self):
        return sum(self.log.geometry.record(key, len(value)) for key, (_, value) in self.log.held.items())

    def settable(self, who, word, size, flags):
        """Why a set of so many bytes is refused, or None."""
        key, geometry = word.encode(), self.log.geometry
        if not is_key(key):
            return "error 2 invalid-key"
        if flags not in ("-", "w"):
            return "error 3 invalid-flags"
        if size > LARGEST:
            return "error 4 invalid-size"
        if refused := self.busy(who):
            return refused
        if self.log.held.get(key, (0,))[0] == WRITE_ONCE:
            return "error 5 write-protected"
        need = self.used() + geometry.record(key, size)
        return f"error 6 media-full need {need} room {geometry.room}" if need > geometry.room else None

    def set(self, who, word, digits, flags):
        value = bytes.fromhex(digits.strip("-"))
        refused = self.settable(who, word, len(value), flags)
        if refused is None:
            self.log.make_room(word.encode(), len(value))
            self.log.append(int(flags == "w"), word.encode(), value)
        return refused or "ok"

    def start(self, who, word, size, flags):
        refused = self.settable(who, word, int(size), flags)
        if refused is None:
            self.log.make_room(word.encode(), int(size))
            self.open_set = dict(who=who, key=word.encode(), size=int(size), flags=int(flags == "w"), bytes=b"")
        return refused or "ok"

    def own(self, who):
        return self.open_set if self.open_set and self.open_set["who"] == who else None

    def add(self, who, digits):
        begun, more = self.own(who), bytes.fromhex(digits.strip("-"))
        if begun is None:
            return "error 10 no-set"
        if len(begun["bytes"]) + len(more) > begun["size"]:
            return "error 4 invalid-size"
        begun["bytes"] += more
        if begun["bytes"]:
            self.log.feed(begun["key"] + begun["bytes"])
        return "ok"

    def finish(self, who):
        begun = self.own(who)
        if begun is None:
            return "error 10 no-set"
        self.open_set = None
        if len(begun["bytes"]) < begun["size"]:
            return "error 4 invalid-size"
        self.log.append(begun["flags"], begun["key"], begun["bytes"])
        return "ok"

    def abort(self, who):
        if self.own(who) is None:
            return "error 10 no-set"
        self.open_set = None
        return "ok"

    def remove(self, who, word):
        key = word.encode()
        if not is_key(key):
            return "error 2 invalid-key"
        if refused := self.busy(who):
            return refused
        if key not in self.log.held:
            return "error 1 not-found"
        if self.log.held[key][0] == WRITE_ONCE:
            return "error 5 write-protected"
        self.log.remove(key)
        return "ok"

    def reset(self, who):
        if refused := self.busy(who):
            return refused
        self.log.collect({})
        return "ok"

    def open(self, who, number, word):
        prefix = word[: word.rindex("*")].encode()
        if not is_name(prefix, 128):
            return "error 2 invalid-key"
        if (who, number) not in self.iterators and len(self.iterators) == 16:
            return "error 7 too-many-iterators"
        self.iterators[who, number] = (prefix, None)
        return "ok"

    def next(self, who, number):
        if (who, number) not in self.iterators:
            return "error 8 no-iterator"
        prefix, last = self.iterators[who, number]
        above = [key for key in self.log.held if key.startswith(prefix) and (last is None or self.log.order(key) > self.log.order(last))]
        if not above:
            return "end"
        key = min(above, key=self.log.order)
        self.iterators[who, number] = (prefix, key)
        return f"key {key.decode()}"

    def close(self, who, number):
        return "ok" if self.iterators.pop((who, number), None) else "error 8 no-iterator"
