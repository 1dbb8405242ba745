#!/usr/bin/env python3
"""run_listings.py LISTINGS [PROGRAM]: runs the images of a file of listings through tamp_list and compares what it prints.

A file has one JSON object a line: name, image in hex, text. PROGRAM is crates/tamp_list/out/tamp_list, as `rt run` leaves it.
Inputs over the largest image are added: they are refused too. Exit status 1 where a listing differs, 2 for a bad file.
"""
import sys
import common

if len(sys.argv) not in (2, 3):
    common.die('usage: tools/run_listings.py LISTINGS [PROGRAM]')
program = common.program('tamp_list', *sys.argv[2:])
cases = common.json_lines(sys.argv[1], 'name image text')
longest = max(cases, key=lambda c: len(c['image']) if not c['text'].startswith('refused') else 0)
for n in (1, 100_000):
    cases.append({'name': f"{longest['name']} and {n} octets more", 'image': longest['image'] + '00' * n, 'text': 'refused 201\n'})
wrong = 0
for c in cases:
    written = common.run(program, bytes.fromhex(c['image']))
    if written != c['text']:
        wrong += 1
        print(c['name'], 'expected', repr(c['text']), 'found', repr(written))
print(len(cases), 'listings,', sum(c['text'].startswith('refused') for c in cases), 'refused,', wrong, 'wrong')
sys.exit(1 if wrong else 0)
