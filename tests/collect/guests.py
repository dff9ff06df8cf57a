"""Guests with attributes of many lengths, each a real gateway, the frames of their answers, and what is to become of them."""
import collections
import os
import re
import tempfile

from link import READ, Failure, Gateway, Host

FLAG = 32  # the fragment flag, bit 5 of a record's byte 2 (01, "Frame record"; 000, figure 3.11)
GATE = b"GATE SENSOR"

Value = collections.namedtuple("Value", "guest object id data")

# Object, ID and length. Every remainder by four, the longest, and beside each other three of one length of which two share the ID and two the object.
ATTRIBUTES = [(0, 0, 1), (0, 8, 2), (0, 18, 3), (0, 56, 11), (1, 10, 4), (1, 11, 5), (2, 18, 6), (2, 56, 32), (3, 10, 7), (3, 56, 32), (3, 57, 32),
              (4, 0, 8), (4, 255, 9), (5, 1, 12), (7, 7, 100), (30, 56, 253), (31, 56, 254), (31, 255, 255)]
PLACES = [(obj, attribute) for obj, attribute, _ in ATTRIBUTES]
MISSING = 9, 9  # an object and an ID that no guest has


def answer_frames(place):
    """how many frames answer a Read: up to six bytes stand in one (01), as does an Error; others have four in each"""
    length = {(obj, attribute): length for obj, attribute, length in ATTRIBUTES}.get(place, 1)
    return 1 if length <= 6 else (length + 3) // 4


def line_of(value):
    """a value as collect prints it, by the rule of its --help"""
    line = f"guest {value.guest:<3}  object {value.object:<2}  attribute {value.id:<3}  {len(value.data):<3} bytes  data {value.data.hex(' ').upper()}"
    text = value.data.rstrip(b"\0")
    if re.fullmatch(rb"[\x20-\x7E]+", text):
        line += '  text "' + text.decode("ascii").replace("\\", "\\\\").replace('"', '\\"') + '"'
    return line


def value_of(line):
    """what a line says, whatever its spaces; its count of bytes and its text are not looked at"""
    words = re.match(r"guest (\d+) +object (\d+) +attribute (\d+) +\d+ +bytes +data((?: [0-9A-F]{2})+)", line)
    if not words:
        raise Failure(f"no value: {line}")
    return Value(*map(int, words.groups()[:3]), bytes.fromhex(words[4]))


def fragmented(rec):
    return bool(rec[0] & 128) and rec[2] & FLAG != 0


def cleared(rec):
    """a fragment without its flag: an answer in one frame, of which number and total are data"""
    return rec[:2] + bytes([rec[2] & ~FLAG]) + rec[3:]


def whole_of(rec):
    """the value that an answer in one frame is by itself"""
    return Value(rec[0] & 127, rec[2] & 31, rec[3], rec[4:2 + (rec[1] & 15)])


class Guest:
    """A gateway on files of its own. All guests have the same attributes, and each has other bytes in them."""

    def __init__(self, address, chance, scratch):
        self.address, self.host = address, Host(address)
        folder = tempfile.mkdtemp(dir=scratch)
        self.table, self.store = (os.path.join(folder, name) for name in ("table", "store"))
        offset, table, store = 0, b"", b""
        for obj, attribute, length in ATTRIBUTES:
            table += bytes([obj, attribute, 3, length, offset & 255, offset >> 8, 0, 0])
            store += self.bytes_for(chance, obj, attribute, length)
            offset += length
        for path, content in (self.table, table), (self.store, store):
            with open(path, "wb") as file:
                file.write(content)
        self.gateway = Gateway(self)

    def bytes_for(self, chance, obj, attribute, length):
        names = {  # filled up by zeros, by spaces, with what is escaped
            (2, 56): b"Conveyor %d" % self.address, (3, 56): (b"gate %d" % self.address).ljust(32), (3, 57): b'a "\\" of %d' % self.address,
            (31, 255): bytes(chance.choice(range(0x20, 0x7F)) for _ in range(length))}
        return names.get((obj, attribute), bytes(chance.randrange(256) for _ in range(length))).ljust(length, b"\0")

    def options(self):
        return ["--address", str(self.address), "--table", self.table, "--store", self.store]

    def value(self, obj, attribute):
        """by the files"""
        with open(self.table, "rb") as table, open(self.store, "rb") as store:
            records, content = table.read(), store.read()
        for place in range(0, len(records), 8):
            rec = records[place:place + 8]
            if rec[:2] == bytes([obj, attribute]):
                offset = rec[4] + 256 * rec[5]
                return Value(self.address, obj, attribute, content[offset:offset + rec[3]])
        raise Failure(f"no attribute {obj} {attribute}")

    def wire(self, reads):
        """the frames of these Reads, as they come: each request, which goes to the gateway, and its answers from there"""
        for place in reads:
            request = self.host.read(*place)
            self.gateway.peer.send(request)
            yield request
            for _ in range(answer_frames(place)):
                answer = self.gateway.peer.receive()
                if answer[0] != 128 | self.address or answer[1] >> 5 != READ:
                    raise Failure(f"no answer of guest {self.address} to a Read: {answer.hex(' ')}")
                yield answer


def mixed(chance, streams):
    """the frames of several streams at random, each one's own order kept; some by turns and some in runs"""
    streams = [iter(stream) for stream in streams]
    while streams:
        stream = chance.choice(streams)
        for _ in range(chance.choice([1, 1, 1, 2, 9])):
            rec = next(stream, None)
            if rec is None:
                streams.remove(stream)
                break
            yield rec


class Outcome:
    """
    What is to be handed over and counted (02, 2026-07): frame by frame, of frames that are all of the right shape. Of each guest the fragments that were
    kept are listed; one that is number 0 begins a list, one that is next in the list's message goes on with it, and any other ends it.
    """

    def __init__(self):
        self.kept, self.values, self.seen, self.dropped = {}, [], 0, 0

    def hear(self, rec):
        """gives the value that is complete with this frame, or None"""
        self.seen += 1
        value = None
        if rec[0] & 128 and rec[1] >> 5 == READ and rec[2] >> 6 == 1:
            value = self.join(rec) if fragmented(rec) else whole_of(rec)
        if value:
            self.values.append(value)
        return value

    def join(self, rec):
        guest, kept = rec[0], self.kept.pop(rec[0], [])
        follows = kept and rec[2:4] == kept[0][2:4] and rec[5] == kept[0][5] and rec[4] == len(kept)
        if not follows:
            self.dropped += 1 if kept else 0
            if rec[4] != 0:
                return None
            kept = []
        kept.append(rec)
        data = b"".join(fragment[6:2 + (fragment[1] & 15)] for fragment in kept)
        if len(data) == rec[5]:
            return Value(guest & 127, rec[2] & 31, rec[3], data)
        self.kept[guest] = kept
        return None

    def tally(self):
        return f"seen {self.seen}, finished {len(self.values)}, dropped {self.dropped}"

    def lines(self):
        return [line_of(value) for value in self.values]


def outcome(records):
    result = Outcome()
    for rec in records:
        result.hear(rec)
    return result
