"""The checks on import and export, a line for each. Usage: checks.py IMPORT EXPORT REPLAY EXPLAIN, the commands of the four programs in words."""
import shlex
import subprocess
import sys

import logs
import pipes
import planted
from programs import Failure, Programs

CHECKS = (
    logs.logs_of_candump, logs.what_candump_writes_besides, logs.logs_of_asc2log, logs.logs_of_python_can, logs.python_can_reads_alike,
    logs.tools_read_exports, logs.every_front, logs.legal_there_and_back, logs.oddities, logs.line_ends, logs.line_lengths,
    logs.every_byte_everywhere, logs.many_lines, logs.many_records, pipes.cut_anywhere, pipes.byte_by_byte, pipes.import_answers_while_open,
    pipes.export_answers_while_open, pipes.memory_stays, pipes.works_on_blocks, pipes.reader_goes_away, logs.words_differ, logs.examples,
)


def passed(check, *arguments):
    name = check.__name__.replace("_", " ")
    try:
        print(f"candump: {name}: {check(*arguments) or 'ok'}", flush=True)
    except (Failure, subprocess.SubprocessError) as failure:
        sys.exit(f"candump: {name}: FAILED: {failure}")


def main():
    importer, exporter, replay, explain = (shlex.split(command) for command in sys.argv[1:])
    programs = Programs(importer, exporter)
    for check in CHECKS:
        passed(check, programs)
    passed(logs.together, programs, replay, explain)
    passed(planted.planted_errors)


main()
