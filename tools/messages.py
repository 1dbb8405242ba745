#!/usr/bin/env python3
"""messages.py CALLS [PROGRAM]: runs the messages of a file of calls through tamp_read and compares.

A file has one JSON object a line: name, message in hex, status, offset, accepted. Where the expected status is of a row up to 127 in the
order of 01's table, the program must write that status and offset; for later rows and every accepted message the message passes. Calls with a
house refusal say nothing about the message and are left out. PROGRAM is crates/tamp_read/out/tamp_read, as `rt run` leaves it.
Exit status 1 where a message differs, 2 for a bad file.
"""
import sys
import common

ROWS = {1, 29, 2, 3, 4, 9, 18, 5, 6, 7, 8, 36, 31, 127}

if len(sys.argv) not in (2, 3):
    common.die('usage: tools/messages.py CALLS [PROGRAM]')
program = common.program('tamp_read', *sys.argv[2:])
calls = [c for c in common.json_lines(sys.argv[1], 'name message status offset accepted') if c['status'] < 200]
messages = [bytes.fromhex(c['message']) for c in calls]
written = common.run(program, b''.join(len(m).to_bytes(4, 'big') + m for m in messages)).splitlines()
wrong = abs(len(written) - len(calls))
for c, line in zip(calls, written):
    refused = c['status'] in ROWS and not c['accepted']
    if line != f"status {c['status']} offset {c['offset']}" if refused else line.startswith(('status ', 'bad')):
        wrong += 1
        print(c['name'], 'expected', (c['status'], c['offset']) if refused else 'to pass', 'found', line)
print(len(calls), 'messages,', sum(line.startswith('status ') for line in written), 'refused,', wrong, 'wrong')
sys.exit(1 if wrong else 0)
