#!/usr/bin/env python3
"""Plays random scenarios of the first form by the program and by an independent model, and prints how many were equal.

usage: tools/compare.py [COUNT [SEED [MODEL'S WORD..]]]

The model is the Python program that the environment variable FLEX_MODEL names; it is run as `MODEL run` with the
scenario on standard input. Where it is missing, nothing is compared and the status is 0. A scenario whose outputs differ
is printed, and the status is 1.
"""

import os
import random
import subprocess
import sys

TOP = os.path.dirname(os.path.dirname(os.path.abspath(__file__)))
LETTERS = "abcdefghijklmnopqrstuvwxyz 0123456789:/.-_"


def operations(dice, nodes, drives, unit):
    """A script of the form: a create, at most one write, and reads and losses of drives at any place."""
    ops = ["create f"]
    size = dice.randint(1, unit)
    write_at = dice.randint(0, 4)
    for turn in range(dice.randint(0, 14)):
        if turn == write_at:
            ops.append("write f 0 text:" + "".join(dice.choice(LETTERS) for _ in range(size)))
        elif dice.random() < 0.45:
            ops.append(f"fail {dice.randint(1, nodes)}/{dice.randint(1, drives)}")
        else:
            ops.append(f"read f {dice.choice([0, 0, dice.randint(0, size + 3), 536870912])} {dice.randint(0, unit + 4)}")
    return ops


def scenario(dice):
    nodes = dice.choice([1, 2, 2, 3, 4, 6, 32])
    drives = dice.randint(1, 200 // nodes if nodes > 12 else 16)
    unit = dice.randint(8, 40)
    lines = [f"nodes = {nodes}", f"drives = {drives}", f"slots = {dice.choice([3, 4, 16, 200])}", f"unit = {unit}"]
    dice.shuffle(lines)
    ops = ", ".join(f'"{op}"' for op in operations(dice, nodes, drives, unit))
    return "\n".join(lines) + f'\n[[file]]\nname = "f"\nlevel = "2x"\n[[actor]]\nops = [{ops}]\n'


def played(words, text):
    ran = subprocess.run(words, input=text.encode(), stdout=subprocess.PIPE, check=False)
    return ran.returncode, ran.stdout


def main():
    count = int(sys.argv[1]) if len(sys.argv) > 1 else 200
    dice = random.Random(int(sys.argv[2]) if len(sys.argv) > 2 else 1)
    model = os.environ.get("FLEX_MODEL", "")
    if not os.path.exists(model):
        print("compare: skipped, since FLEX_MODEL names no model")
        return 0
    equal = 0
    for _ in range(count):
        text = scenario(dice)
        ours = played([f"{TOP}/bin/flex_sim", "run"], text)
        theirs = played([sys.executable, model, "run", *sys.argv[3:]], text)
        if ours == theirs:
            equal += 1
        else:
            print(f"differs:\n{text}program: {ours}\nmodel: {theirs}")
    print(f"compare: {equal} of {count} equal")
    return 0 if equal == count else 1


sys.exit(main())
