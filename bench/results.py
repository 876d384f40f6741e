#!/usr/bin/env python3
"""Times reading and printing results of many elements, beside a plain Rust program that does the same work.

The results are those of chains on four chips: on each, gates, registers with and without enable, and memories,
each of which reads the net of the one before; a schedule that loads, writes and reads them all and sends from
chip to chip; and a map. They are read by a call `results` of `crates/layer_cases` and printed again, to the same
bytes. Prints for each size a line for each program, with processor seconds and the most memory (the best of
several runs, the programs in turn), and one with the ratios. Run it after `rt run` in `crates/layer_cases`, which proves and
builds the program; `rustc` must be on the path.
"""
import os
import resource
import subprocess
import sys
import tempfile

TOP = os.path.dirname(os.path.dirname(os.path.abspath(__file__)))
LAYERS = os.path.join(TOP, "crates", "layer_cases", "out", "layer_cases")
NAMES = ["netlist.v", "schedule.json", "map.json"]
CALL = "results " + " ".join(NAMES)
CHIPS = 4
SIZES = (10_000, 50_000, 200_000)
RUNS = 5
# of each ten elements in a row: seven gates, two registers and a memory
GATES = ["not", "buf", "nand", "xor", "LUT2_4", "LUT1_1", "LUT3_ca"]
INPUTS = {"not": 1, "buf": 1, "LUT1_1": 1, "LUT3_ca": 3}


def line(word, name, nets):
    return f"{word} {name} ({', '.join(f'n{net}' for net in nets)});\n"


def chip(place, count):
    """The netlist of one chip; element k drives net k + 1 and reads the nets before it."""
    gates, registers, memories = [], [line("EHOLD", "r0", [0])], []
    for k in range(count):
        before, turn = [max(k - j, 0) for j in range(3)], k % 10
        if turn < 7:
            word = GATES[turn]
            gates.append(line(word, f"g{len(gates)}", [k + 1, *before[: INPUTS.get(word, 2)]]))
        elif turn == 7:
            registers.append(line("EREG", f"r{len(registers)}", [k + 1, k]))
        elif turn == 8:
            registers.append(line("EREGE", f"r{len(registers)}", [k + 1, k, before[1]]))
        else:
            memories.append(line("EMEM_1_1_1_1", f"m{len(memories)}", [before[1], before[2], k, before[1], k + 1]))
    wires = [f"wire n{k};\n" for k in range(count + 1)]
    text = "".join([f"module chip{place};\n", *wires, *gates, *registers, *memories, "endmodule\n"])
    return text, len(registers), len(memories)


def actions(word, rows):
    return ",".join(f'["{word}",{",".join(map(str, row))}]' for row in rows)


def schedule(registers, memories):
    """All registers are loaded in one slot; the memories are written in one, and read in the next."""
    ports = [(c, m, 0) for c in range(CHIPS) for m in range(memories)]
    slots = [
        actions("input", [(c, 0, 2) for c in range(CHIPS)]),
        actions("load", [(c, r) for c in range(CHIPS) for r in range(1, registers)]),
        actions("send", [(c, 1, 0) for c in range(CHIPS - 1)]),
        actions("write", ports),
        actions("read", ports),
    ]
    return '{"frames":[{"group":"*","slots":[%s]}],"version":1}\n' % ",".join(f"[{slot}]" for slot in slots)


def entry(place, count, registers, memories):
    first = 2 + place * (count + 1)
    subjects = ",".join(f'["net",{first + k}]' for k in range(count + 1))
    reads = ",".join('{"of":%d,"reads":[true]}' % (place * memories + m) for m in range(memories))
    kept = ",".join("true" if r % 2 == 0 else "false" for r in range(registers))
    return '{"memories":[%s],"nets":[%s],"registers":[%s]}' % (reads, subjects, kept)


def texts(count):
    """The texts of results with so many elements on all chips together."""
    each = count // CHIPS
    chips = [chip(place, each) for place in range(CHIPS)]
    _, registers, memories = chips[0]
    entries = ",".join(entry(place, each, registers, memories) for place in range(CHIPS))
    return [
        "".join(text for text, _, _ in chips),
        schedule(registers, memories),
        '{"chips":[%s],"outputs":[[%d,%d]],"version":1}\n' % (entries, CHIPS - 1, each),
    ]


def measure(folder, *words):
    """Runs a program once. This is done in a small process, since a child begins with its parent's memory."""
    with open(os.path.join(folder, "printed"), "wb") as printed:
        process = subprocess.Popen(words, cwd=folder, stdout=printed)
        _, status, usage = os.wait4(process.pid, 0)
        print(usage.ru_utime + usage.ru_stime, usage.ru_maxrss * 1024, status)


def measured(folder, words, wanted):
    told = subprocess.run([sys.executable, __file__, "--measure", folder, *words], check=True, capture_output=True, text=True)
    seconds, memory, status = told.stdout.split()
    with open(os.path.join(folder, "printed")) as file:
        assert file.read() == wanted and status == "0", (words, status)
    return float(seconds), int(memory)


def compare(folder, count, plain):
    written = texts(count)
    for name, text in zip(NAMES + ["cases.txt"], written + [CALL + "\n"]):
        with open(os.path.join(folder, name), "w") as file:
            file.write(text)
    whole = "".join(written)
    programs = {"layers": ([LAYERS, "cases.txt"], f"> {CALL}\n{whole}"), "plain": ([plain, *NAMES], whole)}
    turns = [{who: measured(folder, *program) for who, program in programs.items()} for _ in range(RUNS)]
    best = {who: tuple(map(min, zip(*(turn[who] for turn in turns)))) for who in programs}
    label = f"results {count} elements {len(whole)} bytes"
    for who, (seconds, memory) in best.items():
        print(f"{label} {who} {seconds:.3f} s {memory / 1e6:.1f} MB")
    time_ratio, memory_ratio = (ours / theirs for ours, theirs in zip(best["layers"], best["plain"]))
    print(f"{label} against plain: time {time_ratio:.2f} memory {memory_ratio:.2f}", flush=True)


def main():
    resource.setrlimit(resource.RLIMIT_CORE, (0, 0))
    with tempfile.TemporaryDirectory() as folder:
        plain = os.path.join(folder, "plain")
        subprocess.run(["rustc", "-O", os.path.join(TOP, "bench", "results.rs"), "-o", plain], check=True)
        for count in SIZES:
            compare(folder, count, plain)


if sys.argv[1:2] == ["--measure"]:
    measure(*sys.argv[2:])
else:
    main()
