#!/usr/bin/env python3
"""Runs `settle` on designs that meet each limit exactly, and on ones that are one beyond, and compares.

Wants the proved program: `rt run` in crates/emu, or a whole `rt ci`. Another program may be named:

    python3 bench/limits.py [PROGRAM]
"""
import os
import subprocess
import sys
import tempfile
import time

TOP = os.path.dirname(os.path.dirname(os.path.abspath(__file__)))
NO_CELLS = '{"version":1,"cells":[]}\n'
BRACES = 65_536


def ram(name, address_bits):
    address = ',"address":"A"' if address_bits else ""
    return (
        f'{{"name":"{name}","kind":"memory","address_bits":{address_bits},"width":1,'
        '"writes":[],"reads":[{"data":"Q"' + address + "}]}"
    )


CELLS = '{"version":1,"cells":[' + ram("WIDE", 16) + "," + ram("ONE", 0) + "]}\n"


def nets(more):
    """Nets 0 and 1, six vectors of the greatest width, and the rest of 400,000."""
    rest = 400_000 - 2 - 6 * 65_536 + more
    wide = ",".join(f"w{k}" for k in range(6))
    return f"module t; wire [65535:0] {wide}; wire [{rest - 1}:0] last; endmodule\n", "t;", "nets"


def elements(more):
    """Buffers of three assignments of the greatest width, and the rest of 200,000."""
    rest = 200_000 - 3 * 65_536 + more
    full = " ".join(f"assign w{k} = {{65536{{a}}}};" for k in range(3))
    wires = f"wire [65535:0] w0,w1,w2; wire [{rest - 1}:0] last;"
    return f"module t(a); input a; {wires} {full} assign last = {{{rest}{{a}}}}; endmodule\n", "assign last", "elements"


def instances(more):
    """The top, and all others in one item."""
    row = ",".join(f"u{k}()" for k in range(399_999 + more))
    return f"module h; endmodule module t; h {row}; endmodule\n", "h u0", "instances"


def width(more):
    return f"module t; wire [{65_535 + more}:0] w; endmodule\n", "w;", "width"


def repeat(more):
    """The width of an expression, in a wire that is as wide where it may be."""
    return f"module t(a); input a; wire [65535:0] w; assign w = {{{65_536 + more}{{a}}}}; endmodule\n", "{", "width"


def depth(more):
    """Modules m1 to m64, each in the one before; the top is m1."""
    last = 64 + more
    inner = "".join(f"module m{k}; m{k + 1} u(); endmodule\n" for k in range(2, last))
    return f"module t; m2 u(); endmodule\n{inner}module m{last}; endmodule\n", f"m{last} u", "depth"


def inputs(more):
    row = ",".join("a" for _ in range(64 + more))
    return f"module t(a,y); input a; output y; and(y,{row}); endmodule\n", "and", "inputs"


def words(more):
    """Memories of 65,536 words, and one of one word."""
    row = "".join(f"WIDE u{k}(.A(a), .Q()); " for k in range(64))
    one = "ONE last(.Q()); " * more
    return f"module t(a); input [15:0] a; {row}{one}endmodule\n", "ONE", "words"


CASES = [nets, elements, instances, width, repeat, depth, inputs, words]


def doubled(levels):
    """Modules of which each has ten of the next: the last makes a gate, so there would be 10 to the levels."""
    row = ",".join("u%d()" % k for k in range(10))
    inner = "".join(f"module m{k}; m{k + 1} {row}; endmodule\n" for k in range(levels))
    return inner.replace("module m0;", "module t;", 1) + f"module m{levels}; wire w; buf(w,1'b0); endmodule\n"


def run(program, folder, design, cells):
    texts = {"d": design, "c": cells, "g": '{"groups":[]}\n', "o": "{}\n", "e": "*\n"}
    for name, text in texts.items():
        with open(f"{folder}/{name}", "w") as file:
            file.write(text)
    begin = time.monotonic()
    ended = subprocess.run([program, "settle", "t", *texts], cwd=folder, capture_output=True, check=False)
    return ended.stdout.decode(), time.monotonic() - begin


def judge(label, said, wanted, seconds):
    told = "yes" if said == wanted else "NO: " + repr(said[:60]) + " and not " + repr(wanted[:60])
    print(f"| {label} | {seconds:.2f} s | {told} |", flush=True)
    return said != wanted


def main():
    program = os.path.abspath(sys.argv[1]) if len(sys.argv) > 1 else f"{TOP}/crates/emu/out/emu"
    if not os.access(program, os.X_OK):
        sys.exit(f"limits: no program at {program}: rt run in crates/emu makes it")
    wrong = 0
    print("| limit | time | as it must be |")
    print("|---|---|---|")
    with tempfile.TemporaryDirectory() as folder:
        for make in CASES:
            at_limit, _, _ = make(0)
            said, seconds = run(program, folder, at_limit, CELLS)
            traced = "1 y=0\n" if "output y" in at_limit else "1\n"
            wrong += judge(f"{make.__name__}, at the limit", said, traced, seconds)
            beyond, place, which = make(1)
            said, seconds = run(program, folder, beyond, CELLS)
            wrong += judge(f"{make.__name__}, one beyond", said, f"refused design Limit {which} {beyond.index(place)}\n", seconds)
        said, seconds = run(program, folder, doubled(9), NO_CELLS)
        wrong += judge("10^9 gates", said.rsplit(" ", 1)[0], "refused design Limit elements", seconds)
    sys.exit(wrong > 0)


main()
