"""Errors put into the reference, one at a time, and the check that must find each. The reference without them must pass it."""
import os
import sys

import logs
import pipes
from programs import Failure, Programs

PATIENCE = 1  # second for what, with an error, never comes
FOLDER = "target/tests/candump"
SOURCE = f"{logs.HERE}/reference.py"

# the error, what stands in the reference, what takes its place, and the check
ERRORS = (
    ("the two digits of a byte exchanged", "bytes.fromhex(data.decode())", "bytes(b >> 4 | b << 4 & 240 for b in bytes.fromhex(data.decode()))",
     logs.logs_of_candump),
    ("the length of a remote frame lost", 'int(remote[1] or b"0")', "0", logs.logs_of_candump),
    ("R without a digit refused", "R([0-8]?)", "R([0-8])", logs.logs_of_candump),
    ("R not told from data", "bool(remote) << 4", "0", logs.logs_of_asc2log),
    ("only ten digits of seconds", "[0-9]+", "[0-9]{1,10}", logs.python_can_reads_alike),
    ("# searched in the whole line", 'line[front.end():].partition(b"#")', 'line[line.find(b"#") - 3:].partition(b"#")', logs.oddities),
    ("the last # counts", '.partition(b"#")', '.rpartition(b"#")', logs.oddities),
    ("127 bytes at most", "len(line) > LINE_MOST", "len(line) >= LINE_MOST", logs.oddities),
    ("a length of 9", "R([0-8]?)", "R([0-9]?)", logs.oddities),
    ("a small r", "R([0-8]?)", "[Rr]([0-8]?)", logs.oddities),
    ("CR taken off", "    if len(line) > LINE_MOST:", '    line = line.rstrip(b"\\r")\n    if len(line) > LINE_MOST:', logs.oddities),
    ("the direction taken off", "    if len(line) > LINE_MOST:", "    line = re.sub(rb' [RT]$', b'', line)\n    if len(line) > LINE_MOST:",
     logs.what_candump_writes_besides),
    ("identifiers of two digits", "[0-7][0-9A-Fa-f]{2}", "[0-7][0-9A-Fa-f]{1,2}", logs.oddities),
    ("numbers of lines in two bytes", '{unit} {count}', '{unit} {count & 65535}', logs.many_lines),
    ("/ among the digits of micros", "\\.[0-9]{6}", "\\.[/-9]{6}", logs.every_byte_everywhere),
    ("a refused line not counted", 'refused.append(f"{unit} {count}', 'count -= 1\n                refused.append(f"{unit} {count + 1}', logs.oddities),
    ("a last line without its end lost", "[rest] * (ended and rest", "[rest] * (False and rest", logs.line_ends),
    ("an empty line passed over", 'text.split(b"\\n")', '[line for line in text.split(b"\\n") if line] + [b""] * text.endswith(b"\\n") or [b""]',
     logs.line_ends),
    ("other words for the same refusal", "{answer} {words[answer]}", "{answer} {words[answer]} in {piece[:20]}", logs.oddities),
    ("data of remote frames exported", 'f"R{length}" if record[1] & 16', 'f"R{length}" if False', logs.tools_read_exports),
    ("the length of a remote frame not exported", 'f"R{length}"', '"R"', logs.tools_read_exports),
    ("the service not in the identifier", "record[0] << 3 | record[1] >> 5", "record[0] << 3", logs.tools_read_exports),
    ("exported in small letters", ".hex().upper()", ".hex()", logs.every_front),
    ("bytes beyond the DLC exported", "record[2:2 + length]", "record[2:]", logs.every_front),
    ("a rest that is not refused", "len(text) if ended else len(text) // 10 * 10", "len(text) // 10 * 10", logs.every_front),
    ("what a block does not end lost", "rest + block", "block", pipes.cut_anywhere),
    ("all read before anything is answered", "block = os.read(0, BLOCK)", 'block = sys.stdin.buffer.read()', pipes.import_answers_while_open),
    ("a record answered with the next", "len(text) // 10 * 10", "max(len(text) - 1, 0) // 10 * 10", pipes.export_answers_while_open),
    ("all that was read kept", "block = os.read(0, BLOCK)", "block = os.read(0, BLOCK)\n        words.setdefault(0, []).append(block)", pipes.memory_stays),
    ("byte by byte", "BLOCK = 4096", "BLOCK = 1", pipes.works_on_blocks),
    ("on without a reader", "        text = text[os.write(file, text):]",
     "        try:\n            text = text[os.write(file, text):]\n        except OSError:\n            return", pipes.reader_goes_away),
)


def written(name, text, **patience):
    path = os.path.join(FOLDER, name)
    with open(path, "w", encoding="ascii") as file:
        file.write(text)
    return Programs(*([sys.executable, "-I", "-S", path, program] for program in ("import", "export")), **patience)


def found(check, programs):
    try:
        check(programs)
    except Failure as failure:
        return "Traceback" not in str(failure)  # a program that breaks down shows nothing
    return False


def planted_errors():
    source = logs.content(SOURCE).decode()
    right = written("right.py", source)
    for check in {check: None for _, _, _, check in ERRORS}:
        check(right)
    for what, old, new, check in ERRORS:
        if source.count(old) != 1:
            raise Failure(f"planted error '{what}': its place does not stand once in {SOURCE}")
        if not found(check, written("wrong.py", source.replace(old, new), patience=PATIENCE)):
            raise Failure(f"planted error '{what}': not found by {check.__name__}")
    return f"{len(ERRORS)} of {len(ERRORS)} found"
