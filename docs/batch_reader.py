#!/usr/bin/env python3
"""An independent reader of batches, which gave the expected answers of the tests of `record_bytes`. It shares nothing with the
program but docs/FORMATS.md. `batch_reader.py HEX` says what a payload holds; without words it prints, for each worked payload,
which changes of one byte leave a batch: it adds 1 to each byte in turn, then cuts and doubles each byte in turn."""
import re
import sys

INT = 2 ** 53
DATE = 8_640_000_000_000_000
IDENTIFIER = re.compile(r"[A-Za-z_$][A-Za-z0-9_$]*\Z")


class NoBatch(Exception):
    pass


class Reader:
    def __init__(self, data):
        self.data, self.at = data, 0

    def front(self, count):
        if len(self.data) - self.at < count:
            raise NoBatch
        self.at += count
        return self.data[self.at - count:self.at]

    def byte(self):
        return self.front(1)[0]

    def count(self):
        return int.from_bytes(self.front(4), "big")

    def word(self):
        return int.from_bytes(self.front(8), "big")

    def number(self, limit):
        n = int.from_bytes(self.front(8), "big", signed=True)
        if abs(n) > limit:
            raise NoBatch
        return n

    def string(self):
        return self.front(self.count())

    def text(self):
        try:
            return self.string().decode("utf-8")
        except UnicodeDecodeError:
            raise NoBatch from None

    def flag(self):
        b = self.byte()
        if b > 1:
            raise NoBatch
        return b == 1

    def within(self, least, most):
        n = self.word()
        if not least <= n <= most:
            raise NoBatch
        return n

    def path(self, may_lack):
        kind = self.byte()
        if kind == 0x40 and may_lack:
            return None
        if kind == 0x41:
            strings = found = self.text()
            strings = [strings]
        elif kind == 0x42:
            strings = found = [self.text() for _ in self.times()]
        else:
            raise NoBatch
        parts = [part for string in strings if string for part in string.split(".")]
        if not strings or not all(IDENTIFIER.match(part) for part in parts):
            raise NoBatch
        return found

    def times(self):
        return range(self.count())

    def key(self, depth=100):
        if depth == 0:
            raise NoBatch
        kind = self.byte()
        if kind == 0x21:
            return ("number", self.number(INT))
        if kind == 0x22:
            return ("date", self.number(DATE))
        if kind == 0x23:
            return ("text", self.text())
        if kind == 0x24:
            return ("binary", self.string())
        if kind == 0x25:
            return ("array", [self.key(depth - 1) for _ in self.times()])
        raise NoBatch

    def value(self, depth=100):
        if depth == 0:
            raise NoBatch
        kind = self.byte()
        if kind < 4:
            return ("undefined", "null", "false", "true")[kind]
        if kind == 4:
            return ("int", self.number(INT))
        if kind == 5:
            return ("text", self.text())
        if kind == 6:
            return ("date", self.number(DATE))
        if kind == 7:
            return ("bytes", self.string())
        if kind == 8:
            items = [self.value(depth - 1) for _ in self.times()]
            props = self.props(depth)
            if any(name == "length" or re.fullmatch("[0-9]+", name) for name, _ in props):
                raise NoBatch
            return ("array", items, props)
        if kind == 9:
            return ("object", self.props(depth))
        if kind == 10:
            pairs = [(self.value(depth - 1), self.value(depth - 1)) for _ in self.times()]
            self.once([key for key, _ in pairs])
            return ("map", pairs)
        if kind == 11:
            items = [self.value(depth - 1) for _ in self.times()]
            self.once(items)
            return ("set", items)
        raise NoBatch

    def once(self, values):
        plain = [v for v in values if type(v) is str or v[0] in ("int", "text")]
        if any(plain[i] == plain[j] for i in range(len(plain)) for j in range(i)):
            raise NoBatch

    def props(self, depth):
        props = [(self.text(), self.value(depth - 1)) for _ in self.times()]
        names = [name.encode() for name, _ in props]
        if any(not a < b for a, b in zip(names, names[1:])):
            raise NoBatch
        return props

    def delta(self):
        kind = self.byte()
        if not 0x31 <= kind <= 0x3A:
            raise NoBatch
        names = [self.text()]
        if kind == 0x31:
            return ("version", names, self.within(1, INT - 1))
        if kind == 0x32:
            return ("drop database", names)
        names.append(self.text())
        if kind == 0x33:
            path, auto = self.path(True), self.flag()
            if auto and not (path is None or (type(path) is str and path)):
                raise NoBatch
            return ("create store", names, path, auto)
        if kind == 0x34:
            return ("drop store", names)
        if kind in (0x35, 0x36):
            names.append(self.text())
        if kind == 0x35:
            path, unique, multi = self.path(False), self.flag(), self.flag()
            if multi and type(path) is list:
                raise NoBatch
            return ("create index", names, path, unique, multi)
        if kind == 0x36:
            return ("drop index", names)
        if kind == 0x37:
            return ("put", names, self.key(), self.value())
        if kind == 0x38:
            return ("remove", names, self.key())
        if kind == 0x39:
            return ("clear", names)
        return ("current", names, self.within(1, INT + 1))

    def record(self):
        number = self.word()
        return (number, [self.delta() for _ in self.times()])

    def batch(self):
        records = [self.record() for _ in self.times()]
        if not records or self.at != len(self.data):
            raise NoBatch
        return records


def is_batch(data):
    try:
        Reader(data).batch()
        return True
    except NoBatch:
        return False


def text(s):
    return len(s.encode()).to_bytes(4, "big") + s.encode()


D, S, I = text("d"), text("s"), text("i")
WORKED = {
    "first": bytes.fromhex("00000001" "0000000000000001" "00000002" "31" "0000000164" "0000000000000001"
                           "33" "0000000164" "0000000173" "40" "00"),
    "second": bytes.fromhex("00000001" "0000000000000002" "00000001" "37" "0000000164" "0000000173"
                            "210000000000000001" "040000000000000007"),
    # each other kind of change
    "third": bytes.fromhex("00000001" "0000000000000003" "0000000a")
    + b"\x31" + D + (2).to_bytes(8, "big")
    + b"\x33" + D + S + b"\x41" + text("k") + b"\x01"
    + b"\x35" + D + S + I + b"\x41" + text("a.b") + b"\x01\x01"
    + b"\x35" + D + S + text("j") + b"\x42\0\0\0\x02" + text("") + text("c") + b"\x00\x00"
    + b"\x3a" + D + S + (2).to_bytes(8, "big")
    + b"\x36" + D + S + I
    + b"\x38" + D + S + b"\x23" + text("x")
    + b"\x39" + D + S
    + b"\x34" + D + S
    + b"\x32" + D,
}


def answers(datas):
    return "".join("y" if is_batch(data) else "n" for data in datas)


def main():
    if len(sys.argv) > 1:
        for number, deltas in Reader(bytes.fromhex("".join(sys.argv[1:]))).batch():
            print("record", number)
            for delta in deltas:
                print(" ", *delta)
        return
    for name, data in WORKED.items():
        print(name, data.hex())
        print("  is a batch:", is_batch(data))
        places = range(len(data))
        print("  one more: ", answers(data[:p] + bytes([(data[p] + 1) % 256]) + data[p + 1:] for p in places))
        print("  one less: ", answers(data[:p] + bytes([(data[p] + 255) % 256]) + data[p + 1:] for p in places))
        print("  cut:      ", answers(data[:p] + data[p + 1:] for p in places))
        print("  doubled:  ", answers(data[:p] + data[p:p + 1] + data[p:] for p in places))
        print("  front:    ", answers(data[:p] for p in places))


if __name__ == "__main__":
    main()
