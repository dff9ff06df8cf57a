"""CAN frames, and their records made of the frame itself; lines that are legal but odd, and damaged ones."""
from typing import NamedTuple


class Frame(NamedTuple):
    identifier: int
    remote: bool
    length: int
    data: bytes  # empty where remote


def record_of(frame):
    """01, "Frame record": the upper eight bits of the identifier; its lower three (the service), RTR and the DLC; the data, and zeros behind it"""
    return bytes([frame.identifier // 8, frame.identifier % 8 * 32 + 16 * frame.remote + frame.length, *frame.data]).ljust(10, b"\0")


def random_frame(chance, identifier, remote, length):
    return Frame(identifier, remote, length, b"" if remote else chance.randbytes(length))


def frames_of_all_kinds(chance):
    """each identifier, data and remote, and of each of both many with each length"""
    return [random_frame(chance, identifier, remote, (identifier + identifier // 9 + remote) % 9)
            for identifier in range(0x800) for remote in (False, True)]


def all_fronts(chance):
    """a record for each value of its first two bytes, with anything behind them"""
    return [bytes([front >> 8, front & 255]) + chance.randbytes(8) for front in range(0x10000)]


def cleared(record):
    """a record as it comes back: bytes beyond the DLC are 0, and under RTR all eight"""
    length = 0 if record[1] & 16 else record[1] & 15
    return record[:2 + length].ljust(10, b"\0")


def either_case(chance, text):
    return "".join(chance.choice((letter.lower(), letter)) for letter in text)


def legal_line(chance):
    """whatever 02 allows: seconds of any length that fits, any bytes as interface, hex of either case, RTR with its length or without"""
    if chance.random() < 0.25:
        data = chance.choice(("R", f"R{chance.randrange(9)}"))
    else:
        data = either_case(chance, chance.randbytes(chance.randrange(9)).hex().upper())
    interface = "".join(chr(chance.randrange(0x21, 0x7F)) for _ in range(chance.randint(1, 15)))
    rest = f".{chance.randrange(1000000):06}) {interface} {either_case(chance, f'{chance.randrange(0x800):03X}')}#{data}"
    most = 127 - len(rest)
    digits = chance.choice((1, 10, 10, chance.randint(1, most), most))
    return f"({''.join(chance.choices('0123456789', k=digits))}{rest}".encode()


def damaged(chance, line):
    """a byte of the line altered, lost, doubled or put in, a piece of it lost, or more seconds in front, around the length that is allowed"""
    line, place = bytearray(line), chance.randrange(len(line))
    byte = chance.choice(b"0F#R ().\r\t\0\x7F\xFF" + bytes([chance.randrange(256)])).to_bytes(1, "big").replace(b"\n", b"\r")
    kind = chance.randrange(6)
    if kind == 0:
        line[place:place + 1] = byte
    elif kind == 1:
        del line[place]
    elif kind == 2:
        line.insert(place, line[place])
    elif kind == 3:
        line.insert(place, byte[0])
    elif kind == 4:
        del line[place:chance.randint(place, len(line))]
    else:
        line[1:1] = b"0" * (chance.choice((127, 128, 129, 130, 300)) - len(line))
    return bytes(line)
