"""
import and export once more, from the text of request 2026-02 and for no other use than to be compared. The functions say what is due to a line and to
a record; `reference.py import` and `reference.py export` are programs that do the same, for planted.py to put errors into.
"""
import os
import re
import sys

BLOCK = 4096
LINE_MOST = 128
FRONT = re.compile(rb"\([0-9]+\.[0-9]{6}\) [\x21-\x7E]{1,15}(?: |\Z)")  # time and interface, and the space behind them or the line's end
IDENTIFIER = re.compile(rb"[0-7][0-9A-Fa-f]{2}")
DATA = re.compile(rb"(?:[0-9A-Fa-f]{2}){0,8}")
REMOTE = re.compile(rb"R([0-8]?)")

LINE_WORDS = {1: "over 128 bytes", 2: "time or interface", 3: "identifier", 4: "data"}
RECORD_WORDS = {1: "not ten bytes", 2: "DLC over 8"}


def import_line(line):
    """the record of a line, or the number of the first rule that it breaks"""
    if len(line) > LINE_MOST:
        return 1
    front = FRONT.match(line)
    if not front:
        return 2
    identifier, mark, data = line[front.end():].partition(b"#")
    if not mark or not IDENTIFIER.fullmatch(identifier):
        return 3
    remote = REMOTE.fullmatch(data)
    if not remote and not DATA.fullmatch(data):
        return 4
    length = int(remote[1] or b"0") if remote else len(data) // 2
    data = b"" if remote else bytes.fromhex(data.decode())
    number = int(identifier, 16)
    return bytes([number >> 3, (number & 7) << 5 | bool(remote) << 4 | length]) + data.ljust(8, b"\0")


def export_record(record):
    """the line of a record, with its end, or the number of the first rule that it breaks"""
    if len(record) != 10:
        return 1
    length = record[1] & 15
    if length > 8:
        return 2
    data = f"R{length}" if record[1] & 16 else record[2:2 + length].hex().upper()
    return f"(0.000000) can0 {record[0] << 3 | record[1] >> 5:03X}#{data}\n".encode()


def lines_of(text, ended):
    """whole lines, and what may become one. Of a line that is too long no more is kept than shows it."""
    *lines, rest = text.split(b"\n")
    return lines + [rest] * (ended and rest != b""), rest[:LINE_MOST + 1]


def records_of(text, ended):
    whole = len(text) if ended else len(text) // 10 * 10
    return [text[i:i + 10] for i in range(0, whole, 10)], text[whole:]


def write(file, text):
    while text:
        text = text[os.write(file, text):]


def serve(unit, pieces_of, answer_to, words):
    """answers standard input block by block: what a block completes is answered before the next is waited for"""
    count, rest, block = 0, b"", b" "
    while block:
        block = os.read(0, BLOCK)
        pieces, rest = pieces_of(rest + block, not block)
        out, refused = [], []
        for piece in pieces:
            count += 1
            answer = answer_to(piece)
            if isinstance(answer, int):
                refused.append(f"{unit} {count}: {answer} {words[answer]}\n")
            else:
                out.append(answer)
        write(1, b"".join(out))
        write(2, "".join(refused).encode())


if __name__ == "__main__":
    if sys.argv[1] == "import":
        serve("line", lines_of, import_line, LINE_WORDS)
    else:
        serve("record", records_of, export_record, RECORD_WORDS)
