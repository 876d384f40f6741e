#!/usr/bin/env python3
"""Times commands on chains of inverters, beside a plain Rust program that does the same work.

First designs that `check` reads and then refuses for their last gate, an `and`: fetching, tokens, grammar.
Then whole commands `check` that end with `accepted`: all seven texts are read and judged. Then `settle` and
`replay` of events that change the one input each time, `replay` with frames of several slots, and `settle` with
a chain for each of 32 groups. Prints for each size a line for each program, with
seconds and the most memory (the best of several runs, the two programs in turn, since a machine that others
share is slower at one time than at another), and one with the ratios of the two. Run it after `rt run` in
`crates/emu`, which proves and builds the program; `rustc` must be on the path. Words after the script's name
choose the kinds of row: read, check, settle, replay, slots, groups.
"""
import os
import resource
import subprocess
import sys
import tempfile
import time

TOP = os.path.dirname(os.path.dirname(os.path.abspath(__file__)))
EMU = os.path.join(TOP, "crates", "emu", "out", "emu")
NAMES = ["design.v", "cells.json", "groups.json", "board.json", "netlist.v", "schedule.json", "map.json"]
RUN = ["opening.json", "events.txt"]
WORDS = {
    "check": ["check", "t"] + NAMES,
    "settle": ["settle", "t"] + NAMES[:3] + RUN,
    "replay": ["replay", "t"] + NAMES + RUN,
}
SIZES = (10_000, 50_000, 200_000)
EVENTS = 1_000
GROUPS = 32
GROUP_EVENTS = 3_000


def design(count, comment):
    parts = ["module t(n0,n%d); input n0; output n%d;\n" % (count, count)]
    parts += ["  not g%d (n%d, n%d);%s\n" % (k, k + 1, k, comment) for k in range(count)]
    return "".join(parts) + "endmodule\n"


def long_design(size):
    """A chain of about so many bytes, one gate a line with a comment, in a module that is not the top."""
    parts = ["module s(a,y); input a; output y;\n"]
    length = len(parts[0])
    count = 0
    while length < size - 120:
        line = f"  not g{count} (n{count + 1}, n{count}); // stage {count}\n"
        parts.append(line)
        length += len(line)
        count += 1
    return "".join(parts) + "  not(y, a);\nendmodule\n"


def net(k, count):
    """The number of net nK of the design: ports come first, then wires in the order of their first use."""
    return 2 if k == 0 else 3 if k == count else k + 3


def texts(count, slots=1):
    """The seven texts of a chain with results that are accepted. The input is taken in the last slot."""
    netlist = ["module chip0;\n"] + ["wire n%d;\n" % k for k in range(count + 1)]
    netlist += ["not g%d (n%d, n%d);\n" % (k, k + 1, k) for k in range(count)]
    netlist += ["EHOLD r0 (n0);\nendmodule\n"]
    subjects = ",".join('["net",%d]' % net(k, count) for k in range(count + 1))
    return [
        design(count, ""),
        '{"version":1,"cells":[]}\n',
        '{"groups":[]}\n',
        '{"version":1,"chips":[{"room":%d}],"wires":[],"slots":%d}\n' % (count, slots),
        "".join(netlist),
        '{"frames":[{"group":"*","slots":[%s[["input",0,0,2]]]}],"version":1}\n' % ("[]," * (slots - 1)),
        '{"chips":[{"memories":[],"nets":[%s],"registers":[true]}],"outputs":[[0,%d]],"version":1}\n' % (subjects, count),
    ]


def events():
    """The input goes up and down by turns."""
    return "".join("* n0=%d\n" % (k % 2) for k in range(1, EVENTS + 1))


def trace(count):
    """What the events give: after so many inverters the output is the input, or its opposite."""
    return "".join("%d n%d=%d\n" % (k, count, (k + count) % 2) for k in range(1, EVENTS + 1))


def group_texts(count):
    """Chains of so many inverters in all, each from an input in a group of its own."""
    length = count // GROUPS
    ports = ",".join(f"a{g},y{g}" for g in range(GROUPS))
    parts = [f"module t({ports});\n"]
    parts += [f"input a{g}; output y{g};\n" for g in range(GROUPS)]
    for g in range(GROUPS):
        names = [f"a{g}"] + [f"w{g}_{k}" for k in range(1, length)] + [f"y{g}"]
        parts += [f"  not ({names[k + 1]}, {names[k]});\n" for k in range(length)]
    groups = ",".join('{"name":"g%d","ports":["a%d"]}' % (g, g) for g in range(GROUPS))
    lines = "".join("g%d a%d=%d\n" % (k % GROUPS, k % GROUPS, 1 - k // GROUPS % 2) for k in range(GROUP_EVENTS))
    written = ["".join(parts) + "endmodule\n", '{"version":1,"cells":[]}\n', '{"groups":[%s]}\n' % groups]
    return written + ["", "", "", "", "{}\n", lines]


def group_trace(count):
    """The groups take turns, each turns its input over, and each chain shows its input, or its opposite."""
    odd, values, lines = count // GROUPS % 2, [0] * GROUPS, []
    for k in range(GROUP_EVENTS):
        values[k % GROUPS] = 1 - k // GROUPS % 2
        lines.append("%d %s\n" % (k + 1, " ".join("y%d=%d" % (g, (values[g] + odd) % 2) for g in range(GROUPS))))
    return "".join(lines)


def measure(program, folder, command):
    """Runs a program once. This is done in a small process, since a child begins with its parent's memory."""
    before = time.monotonic()
    process = subprocess.Popen([program] + WORDS[command], cwd=folder, stdout=subprocess.PIPE)
    printed = process.stdout.read().decode()
    _, _, usage = os.wait4(process.pid, 0)
    print(time.monotonic() - before, usage.ru_maxrss * 1024, repr(printed))


def measured(program, folder, command, wanted):
    words = [sys.executable, __file__, "--measure", program, folder, command]
    told = subprocess.run(words, check=True, capture_output=True, text=True).stdout
    seconds, memory, printed = told.split(" ", 2)
    assert printed.strip() == repr(wanted), printed[:200]
    return float(seconds), int(memory)


def compare(folder, command, label, written, wanted, plain):
    for name, text in zip(NAMES + RUN, written):
        with open(os.path.join(folder, name), "w") as file:
            file.write(text)
    programs = {"emu": EMU, "plain": plain}
    turns = [
        {who: measured(program, folder, command, wanted) for who, program in programs.items()}
        for _ in range(15 if command == "check" else 5)
    ]
    best = {who: tuple(map(min, zip(*(turn[who] for turn in turns)))) for who in programs}
    for who in programs:
        print(f"{label} {who} {best[who][0]:.3f} s {best[who][1] / 1e6:.1f} MB")
    time_ratio, memory_ratio = (ours / theirs for ours, theirs in zip(best["emu"], best["plain"]))
    print(f"{label} against plain: time {time_ratio:.2f} memory {memory_ratio:.2f}", flush=True)


def read_rows(folder, plain):
    one = texts(1)
    for size in (1 << 20, 8 << 20, (64 << 20) - 64):
        text = long_design(size)
        compare(folder, "check", f"read {len(text)} bytes", [text] + one[1:], "refused design NoTop\n", plain)


def check_rows(folder, plain):
    for count in SIZES:
        compare(folder, "check", f"check {count} inverters", texts(count), "accepted\nframe * 1\n", plain)


def run_rows(folder, plain, command):
    for count in SIZES:
        label = f"{command} {count} inverters {EVENTS} events"
        compare(folder, command, label, texts(count) + ["{}\n", events()], trace(count), plain)


def slot_rows(folder, plain):
    for slots in (1, 10, 100):
        label = f"replay {SIZES[1]} inverters {EVENTS} events {slots} slots"
        compare(folder, "replay", label, texts(SIZES[1], slots) + ["{}\n", events()], trace(SIZES[1]), plain)


def group_rows(folder, plain):
    for count in (10_000, 100_000):
        label = f"settle {count} inverters {GROUP_EVENTS} events of {GROUPS} groups"
        compare(folder, "settle", label, group_texts(count), group_trace(count), plain)


def main(kinds):
    resource.setrlimit(resource.RLIMIT_CORE, (0, 0))
    with tempfile.TemporaryDirectory() as folder:
        plain = os.path.join(folder, "plain")
        subprocess.run(["rustc", "-O", os.path.join(TOP, "bench", "plain.rs"), "-o", plain], check=True)
        for kind in kinds:
            if kind == "read":
                read_rows(folder, plain)
            elif kind == "check":
                check_rows(folder, plain)
            elif kind == "slots":
                slot_rows(folder, plain)
            elif kind == "groups":
                group_rows(folder, plain)
            else:
                run_rows(folder, plain, kind)


if sys.argv[1:2] == ["--measure"]:
    measure(*sys.argv[2:])
else:
    main(sys.argv[1:] or ["read", "check", "settle", "replay", "slots", "groups"])
