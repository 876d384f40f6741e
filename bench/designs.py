#!/usr/bin/env python3
"""Times `settle` of one event on whole designs, beside a plain Rust program that does the same work.

Three shapes, each from 10,000 to 200,000 elements: one flat module of cells; instances of a module of 150
cells; and vectors of 64 bits that are joined and cut. Prints for each size a line for each program, with
seconds and the most memory (the best of several runs, the programs in turn), and one with the ratios. The
programs must print the same. Run it after `rt run` in `crates/emu`, which proves and builds the program;
`rustc` must be on the path. A word after the script's name is one more program to compare with.
"""
import os
import subprocess
import sys
import tempfile
import time

TOP = os.path.dirname(os.path.dirname(os.path.abspath(__file__)))
EMU = os.path.join(TOP, "crates", "emu", "out", "emu")
NAMES = ["design.v", "cells.json", "groups.json", "opening.json", "events.txt"]
SIZES = (10_000, 50_000, 100_000, 195_000)
RUNS = 5
CELLS = """{"version":1,"cells":[
{"name":"DFF","kind":"flop","clock":{"pin":"CK","edge":"rise"},"data":"D","q":"Q","qn":"QN"},
{"name":"NAND2","kind":"comb","inputs":["A","B"],"outputs":[{"pin":"Y","table":"1110"}]}]}
"""


def stages(count):
    """So many pairs of a NAND and a flip-flop, from net x0 to the last x."""
    pairs = "  NAND2 a{k} (.A(x{k}), .B(e), .Y(w{k}));\n  DFF f{k} (.CK(ck), .D(w{k}), .Q(x{next}), .QN());\n"
    return "".join(pairs.format(k=k, next=k + 1) for k in range(count))


def flat(count):
    """One module of so many cells."""
    half = count // 2
    return f"module t(ck,e,d,q); input ck,e,d; output q; wire x0;\nbuf(x0,d);\n{stages(half)}buf(q,x{half});\nendmodule\n"


def nested(count):
    """Instances of a module of 150 cells, one after the other; its ports take four buffers."""
    blocks = count // 156
    inner = f"module block(ck,e,d,q); input ck,e,d; output q; wire x0;\nbuf(x0,d);\n{stages(75)}buf(q,x75);\nendmodule\n"
    row = "".join(f"  block b{k} (.ck(ck), .e(e), .d(y{k}), .q(y{k + 1}));\n" for k in range(blocks))
    return f"{inner}module t(ck,e,d,q); input ck,e,d; output q; wire y0;\nbuf(y0,d);\n{row}buf(q,y{blocks});\nendmodule\n"


def vectors(count):
    """Vectors of 64 bits, each joined of parts of the one before."""
    rows = count // 64
    cuts = ["{{v{k}[31:0],v{k}[63:32]}}", "{{2{{v{k}[15:8],v{k}[40:17]}}}}", "{{v{k}[0],v{k}[63:1]}}", "{{v{k}[62:3],4'b1010}}"]
    parts = ["module t(d,q); input [63:0] d; output [0:63] q; wire [63:0] v0 = d;\n"]
    parts += [f"wire [63:0] v{k + 1}; assign v{k + 1} = {cuts[k % len(cuts)].format(k=k)};\n" for k in range(rows - 2)]
    return "".join(parts) + f"assign q = v{rows - 2};\nendmodule\n"


SHAPES = {
    "one flat module of cells": (flat, "* ck=1 e=1 d=1\n"),
    "instances of a module of 150 cells": (nested, "* ck=1 e=1 d=1\n"),
    "vectors joined and cut": (vectors, "* d=123456789abcdef0\n"),
}


def measure(program, folder):
    """Runs a program once. This is done in a small process, since a child begins with its parent's memory."""
    before = time.monotonic()
    process = subprocess.Popen([program, "settle", "t", *NAMES], cwd=folder, stdout=subprocess.PIPE)
    printed = process.stdout.read().decode()
    _, _, usage = os.wait4(process.pid, 0)
    print(time.monotonic() - before, usage.ru_maxrss * 1024, repr(printed))


def measured(program, folder):
    words = [sys.executable, __file__, "--measure", program, folder]
    told = subprocess.run(words, check=True, capture_output=True, text=True).stdout
    seconds, memory, printed = told.split(" ", 2)
    return float(seconds), int(memory), printed.strip()


def compare(folder, label, texts, programs):
    for name, text in zip(NAMES, texts):
        with open(os.path.join(folder, name), "w") as file:
            file.write(text)
    turns = [[measured(program, folder) for program in programs.values()] for _ in range(RUNS)]
    assert len({run[2] for turn in turns for run in turn}) == 1, [run[2][:80] for run in turns[0]]
    best = [tuple(min(run[k] for run in runs) for k in (0, 1)) for runs in zip(*turns)]
    for who, (seconds, memory) in zip(programs, best):
        print(f"{label} {who} {seconds:.3f} s {memory / 1e6:.1f} MB")
    for who, (seconds, memory) in list(zip(programs, best))[1:]:
        print(f"{label} against {who}: time {best[0][0] / seconds:.2f} memory {best[0][1] / memory:.2f}", flush=True)


def main(others):
    with tempfile.TemporaryDirectory() as folder:
        plain = os.path.join(folder, "plain")
        subprocess.run(["rustc", "-O", os.path.join(TOP, "bench", "whole.rs"), "-o", plain], check=True)
        programs = {"emu": EMU, "plain": plain, **{os.path.basename(other): os.path.abspath(other) for other in others}}
        for shape, (make, event) in SHAPES.items():
            for count in SIZES:
                texts = [make(count), CELLS, '{"groups":[]}\n', "{}\n", event]
                compare(folder, f"{shape}, {count} elements,", texts, programs)


if sys.argv[1:2] == ["--measure"]:
    measure(*sys.argv[2:])
else:
    main(sys.argv[1:])
