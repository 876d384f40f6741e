#!/usr/bin/env python3
"""Runs `settle` on long and hostile groups, openings and events, and compares what it prints.

Each text is made in two lengths, the second twice the first, so that the ratio of the times shows the
growth. Wants the proved program: `rt run` in crates/emu, or a whole `rt ci`. Another program may be named:

    python3 bench/bad_inputs.py [PROGRAM]
"""
import os
import subprocess
import sys
import tempfile
import time

TOP = os.path.dirname(os.path.dirname(os.path.abspath(__file__)))
MIB = 1 << 20
TEXTS = {
    "design": b"module t(a,y); input a; output y; not(y,a); endmodule\n",
    "cells": b'{"version":1,"cells":[]}\n',
    "groups": b'{"groups":[]}\n',
    "opening": b"{}\n",
    "events": b"* a=1\n",
}
# what is made, the text that it stands in for, its length in bytes or names, and what must be printed
CASES = [
    ("one word as long as a text may be", "events", 64 * MIB, lambda n: b"x" * n, b"refused events NoGroup 1\n"),
    ("one line of words without `=`", "events", 64 * MIB, lambda n: b"* " + b"a " * ((n - 2) // 2), b"refused events BadLine 1\n"),
    ("a port named again and again in an event", "events", 64 * MIB, lambda n: b"*" + b" a=1" * ((n - 1) // 4), b"refused events PortTwice 1\n"),
    ("a value of leading zeros in an event", "events", 64 * MIB, lambda n: b"* a=" + b"0" * (n - 5) + b"1", b"1 y=0\n"),
    ("a value of 1s in an event", "events", 64 * MIB, lambda n: b"* a=" + b"1" * (n - 4), b"refused events BadValue 1\n"),
    ("empty lines, then a fault", "events", 64 * MIB, lambda n: b"\n" * (n - 1) + b"x", b"refused events NoGroup %d\n"),
    ("a value of 1s in an opening", "opening", 10_000_000, lambda n: b'{"inputs":{"a":"' + b"1" * n + b'"}}', b"refused opening BadValue a\n"),
    ("a value of leading zeros in an opening", "opening", 10_000_000, lambda n: b'{"inputs":{"a":"' + b"0" * n + b'1"}}', b"1 y=0\n"),
    ("a port named again and again in an opening", "opening", 1_000_000, lambda n: b'{"inputs":{' + b'"a":"2",' * n + b'"a":"1"}}', b"1 y=0\n"),
    ("paths of no state", "opening", 1_000_000, lambda n: b'{"ones":[' + b'"u",' * n + b'"u"]}', b"refused opening NoState u\n"),
    ("words of no memory", "opening", 1_000_000, lambda n: b'{"words":[' + b'["m",0,"0"],' * n + b'["m",0,"0"]]}', b"refused opening NoWord m\n"),
    ("a port named again and again in a group", "groups", 1_000_000, lambda n: b'{"groups":[{"name":"g","ports":[' + b'"a",' * n + b'"a"]}]}', b"refused groups PortTwice 0\n"),
    ("more groups than there may be", "groups", 1_000_000, lambda n: b'{"groups":[' + b'{"name":"g","ports":["a"]},' * n + b'{"name":"g","ports":["a"]}]}', b"refused groups Limit\n"),
    ("nested brackets", "groups", 10_000_000, lambda n: b"[" * n, b"refused groups NotJson\n"),
]


def run(program, folder, kind, text):
    """What the program prints, with this text in place of one of its kind, and the seconds that it takes."""
    for name, usual in TEXTS.items():
        with open(f"{folder}/{name}", "wb") as file:
            file.write(text if name == kind else usual)
    begin = time.monotonic()
    ended = subprocess.run([program, "settle", "t", *TEXTS], cwd=folder, capture_output=True, check=False)
    return ended.stdout, time.monotonic() - begin


def main():
    program = os.path.abspath(sys.argv[1]) if len(sys.argv) > 1 else f"{TOP}/crates/emu/out/emu"
    if not os.access(program, os.X_OK):
        sys.exit(f"bad_inputs: no program at {program}: rt run in crates/emu makes it")
    wrong = 0
    print("| text | of | time | against half the length | as it must be |")
    print("|---|---|---|---|---|")
    with tempfile.TemporaryDirectory() as folder:
        for told, kind, length, make, wanted in CASES:
            _, half = run(program, folder, kind, make(length // 2))
            said, whole = run(program, folder, kind, make(length))
            if b"%d" in wanted:
                wanted = wanted % length
            wrong += said != wanted
            print(f"| {told} | {kind} | {whole:.2f} s | {whole / half:.1f} | {'yes' if said == wanted else 'NO: ' + repr(said[:60])} |", flush=True)
    sys.exit(wrong > 0)


main()
