#!/usr/bin/env python3
"""Measures the built program on large inputs: prints for each its status, seconds, peak memory and bytes of output.

With the word `texts` it measures the reader of scenarios instead, as `rt run` in crates/bench_scenario builds it; with the
word `reports` the reader and the printer of reports, as `rt run` in crates/bench_report builds them.
"""

import os
import subprocess
import sys
import tempfile
import time

TOP = os.path.dirname(os.path.dirname(os.path.abspath(__file__)))
CLUSTER = 'unit = 8192\nnodes = 2\ndrives = 1\nslots = 16\n[[file]]\nname = "a"\nlevel = "2x"\n[[actor]]\n'
LIMIT = 1048576


def script(ops):
    return CLUSTER + "ops = [" + ", ".join(f'"{op}"' for op in ops) + "]\n"


def inputs():
    write = "write a 0 text:" + "x" * 4096
    first = script(["create a", write, "read a 0 4096"])
    yield "a source of 1 MiB, most of it a comment", first + "#" * (LIMIT - len(first))
    yield "4,000 reads of 4 KiB", script(["create a", write] + ["read a 0 4096"] * 4000)
    yield "4,000 losses and empty reads", script(["create a", write] + ["fail 1/1", "read a 0 0"] * 2000)
    yield "a source one byte too long", first + "#" * (LIMIT + 1 - len(first))


def texts():
    """Texts for the reader of scenarios of the whole language, and what each is answered."""
    head = "unit = 8\nnodes = 3\ndrives = 2\nslots = 16\n" + "".join(f'[[file]]\nname = "f{n}"\nlevel = "2x"\n' for n in range(256))
    op = '"read f9 0 5",\n'
    actors = [op * 4096] * 15 + [op * (65_000 - 15 * 4096)]
    whole = head + "".join(f"[[actor]]\nops = [\n{ops}]\n" for ops in actors)
    yield "65,000 operations, 1 MiB", whole + "#" * (LIMIT - len(whole)), "unit = 8"
    yield "the same with an undeclared file at the end", whole[:-2 - len(op)] + '"read g 0 5",\n]\n' , "name 16 3560"
    short = CLUSTER.replace("nodes = 2", "nodes = %s") + 'ops = ["create a"]\n'
    yield "a million brackets", "nodes = " + "[" * 1_000_000, "toml 0 0"
    yield "a million brackets in an operation's place", CLUSTER + "ops = " + "[" * 1_000_000, "toml 0 0"
    yield "an integer of a million digits", short % ("9" * 1_000_000), "toml 0 0"
    yield "an operation with a number of a million digits", script(["fail 1/" + "9" * 1_000_000]), "drive 1 1"
    yield "a key of a million bytes", "k" * 1_000_000 + " = 1\n" + short % 2, "keys 0 0"
    yield "80,000 unknown keys", "".join(f"k{n} = 1\n" for n in range(80_000)) + short % 2, "keys 0 0"
    yield "a million bytes that are no UTF-8", b"\xff" * 1_000_000, "utf8 0 0"
    yield "a million NULs", "\0" * 1_000_000, "toml 0 0"


SIZE = 100_000_000
REPORT = "report 1\nunit = 8\nnodes = 3\ndrives = 2\nslots = 16\nworkers = 1\n" + '[[file]]\nname = "a"\nlevel = "2x"\n[[actor]]\nops = [\n"create a",\n]\n'
ORDER = "1.{n} fail 1/1 nochange gone\n"
WRITE = "1.{n} e3 write 1234 32 size 1266 old 1,2 new 3=4+2@2/1:1,3/1:1,1/1:1,2/2:0,3/2:0,1/2:0 4=1+1@2/1:1,1/1:1 inode 2=1+2@3/1:2,1/1:2,2/1:2\n"
READ = "1.{n} e0 read 0 40 shown " + "68656c6c6f" * 8 + "\n"
LONG = "1.{n} e0 read 0 4096 shown " + "68656c6c" * 1024 + "\n"


def lines_of(line):
    return [line.format(n=n) for n in range(1, count_of(line) + 1)]


def count_of(line):
    return SIZE // len(line)


def board_report(lines):
    return f"{REPORT}board {len(lines)}\n" + "".join(lines) + "engine 0\nfile a 0\nend\n"


def file_report(lines):
    return f"{REPORT}board 0\nengine 0\nfile a {len(lines)}\n" + "".join(lines) + "end\n"


def reports():
    """Large reports and hostile ones, as functions that make them, and what each is answered."""
    yield "100 MB of orders", lambda: board_report(lines_of(ORDER)), "read"
    yield "100 MB of writes", lambda: file_report(lines_of(WRITE)), "read"
    yield "100 MB of reads of 40 bytes", lambda: file_report(lines_of(READ)), "read"
    yield "100 MB of reads of 4 KiB", lambda: file_report(lines_of(LONG)), "read"
    yield "100 MB of writes, the last line wrong", lambda: file_report(lines_of(WRITE))[:-2], f"line {count_of(WRITE) + 17}"
    yield "a scenario of 100 MB that is none", lambda: "report 1\n" + "nodes = [" * (SIZE // 9), "line 2"
    yield "100 MB of line feeds", lambda: "report 1\n" + "\n" * SIZE, "line 2"
    yield "a line of 100 MB", lambda: file_report(["1.1 e0 read 0 40 shown " + "6" * (SIZE + 1) + "\n"]), "line 17"
    yield "a list of 50 million commas", lambda: file_report(["1.1 e0 write 0 5 size 5 old " + "," * (SIZE // 2) + "\n"]), "line 17"


def measured(arguments, source, output):
    start = time.monotonic()
    child = subprocess.Popen(arguments, stdin=source, stdout=output)
    _, status, used = os.wait4(child.pid, 0)
    seconds = time.monotonic() - start
    return f"status {os.waitstatus_to_exitcode(status)}, {seconds:.3f} s, {used.ru_maxrss / 1024:.1f} MiB, {os.fstat(output.fileno()).st_size} bytes"


def answered(program, source, want):
    """What the program costs on this source, and the first line of its answer."""
    with tempfile.TemporaryFile() as answer:
        source.seek(0)
        told = measured([program], source, answer)
        answer.seek(0)
        line = answer.readline().decode().rstrip()
    return f"{told}, {line if line == want else f'{line} IN PLACE OF {want}'}"


def measure_texts():
    program = f"{TOP}/crates/bench_scenario/out/bench_scenario"
    for name, text, want in texts():
        with tempfile.TemporaryFile() as source:
            source.write(text if isinstance(text, bytes) else text.encode())
            print(f"{name}: {answered(program, source, want)}")


def write_apart(source, make):
    """Writes the text in a process of its own: what a parent holds counts as its children's peak of memory."""
    child = os.fork()
    if child == 0:
        source.write(make().encode())
        source.flush()
        os._exit(0)
    os.waitpid(child, 0)


def measure_reports():
    program = f"{TOP}/crates/bench_report/out/bench_report"
    for name, make, want in reports():
        with tempfile.TemporaryFile() as source:
            write_apart(source, make)
            print(f"{name}: {answered(program, source, want)}")
            if want == "read":
                source.seek(0)
                print("  " + subprocess.run([program, "time"], stdin=source, capture_output=True, text=True, check=False).stdout.rstrip())


def main():
    if sys.argv[1:] == ["texts"]:
        measure_texts()
        return 0
    if sys.argv[1:] == ["reports"]:
        measure_reports()
        return 0
    program = [f"{TOP}/bin/flex_sim", "run"]
    subprocess.run(program, input=b"", stdout=subprocess.DEVNULL, check=False)
    for name, text in inputs():
        with tempfile.TemporaryFile() as source, tempfile.TemporaryFile() as report:
            source.write(text.encode())
            source.seek(0)
            print(f"{name}: " + measured([f"{TOP}/crates/flex_sim/out/flex_sim", "run"], source, report))
    return 0


sys.exit(main())
