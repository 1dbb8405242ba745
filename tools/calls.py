#!/usr/bin/env python3
"""Calls for the program tamp_call.

    tools/calls.py CALLS.. [--program PROGRAM]    runs the calls of the files through PROGRAM and compares number, offset, reply and store
    tools/calls.py CALLS OUTSIDE.. --gate         writes crates/tamp_call/stdin and stdout: of CALLS those of the paper and one for each
                                                  status and house refusal, then all of OUTSIDE (tools/outside_calls.py makes them)

A file has one JSON object a line: name; message, image and verdict in hex; reply_room and next_room; status and offset, reply in hex, and
next in hex or same_next. PROGRAM is crates/tamp_call/out/tamp_call, as `rt run` leaves it. A call that the program does not take (over its limits)
is left out. Exit status 1 where a call differs, 2 for a bad file.
"""
import argparse, sys
import common

FIELDS = 'name message image verdict reply_room next_room status offset reply '
LINES = 4  # that tamp_call prints for a call


def frame(c):
    """the input of tamp_call (docs/PROGRAMS.md)"""
    parts = [bytes.fromhex(c[k]) for k in ('message', 'image', 'verdict')]
    numbers = [len(p) for p in parts] + [c['reply_room'], c['next_room']]
    return b''.join(n.to_bytes(4, 'big') for n in numbers) + b''.join(parts)


def expected(c):
    refused = 201 <= c['status'] <= 205
    store = '' if refused else c['image'] if c.get('same_next') else c['next']
    return [f"status {c['status']}", f"offset {c['offset']}", f"reply {c['reply'].upper() or '-'}", f"store {store.upper() or '-'}"]


def taken(c):
    return (len(c['message']) <= 2 * 16384 and len(c['image']) <= 2 * 131072 and len(c['verdict']) <= 2 * 255
            and max(c['reply_room'], c['next_room']) <= 131072)


def read(file):
    return [c for c in common.json_lines(file, FIELDS + 'next', FIELDS + 'same_next') if taken(c)]


def gate(calls, outside):
    chosen, seen = [], set()
    for c in calls:
        if c['name'].startswith('paper.') or c['status'] not in seen:
            chosen.append(c)
            seen.add(c['status'])
    # 202, which the file may lack: a verdict with an octet too few
    c = chosen[0]
    chosen.append({**c, 'verdict': c['verdict'][2:], 'status': 202, 'offset': 0, 'reply': ''})
    print(len(chosen), 'calls, statuses', sorted(seen | {202}), 'and', len(outside), 'from outside, statuses', sorted({c['status'] for c in outside}))
    chosen += outside
    open(common.path('crates/tamp_call/stdin'), 'wb').write(b''.join(frame(c) for c in chosen))
    open(common.path('crates/tamp_call/stdout'), 'w').write(''.join(line + '\n' for c in chosen for line in expected(c)))


def compare(calls, program):
    written = common.run(program, b''.join(frame(c) for c in calls)).splitlines()
    wrong = abs(len(written) - LINES * len(calls))
    for i, c in enumerate(calls):
        found = written[LINES * i:LINES * (i + 1)]
        if found != expected(c):
            wrong += 1
            print(c['name'], 'expected', [x[:60] for x in expected(c)], 'found', [x[:60] for x in found])
    print(len(calls), 'calls,', wrong, 'wrong')
    sys.exit(1 if wrong else 0)


parser = argparse.ArgumentParser(description=__doc__, formatter_class=argparse.RawDescriptionHelpFormatter)
parser.add_argument('files', nargs='+')
parser.add_argument('--program')
parser.add_argument('--gate', action='store_true')
given = parser.parse_args()
if not given.gate:
    program = common.program('tamp_call', given.program)
calls = [read(file) for file in given.files]
if given.gate:
    gate(calls[0], sum(calls[1:], []))
else:
    compare(sum(calls, []), program)
