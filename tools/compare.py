#!/usr/bin/env python3
"""Compares what the program prints with what the reference prints.

    tools/compare.py PROGRAM                 on the gate's script and on samples/
    tools/compare.py PROGRAM FIRST LAST      on the random scripts of the seeds from FIRST to LAST

PROGRAM is crates/day/out/day once `rt run` in crates/day has built it. Each script is run twice, by the program and by the reference,
each in a folder of its own; the pages that they save have to hold the same triples.
"""
import os
import shutil
import subprocess
import sys
import tempfile

sys.dont_write_bytecode = True
import day_reference as reference
from random_scripts import random_script

TOP = os.path.dirname(os.path.dirname(os.path.abspath(__file__)))
DATA = os.path.join(TOP, "crates", "day", "data")


def pages(folder):
    """What each page of a folder holds: its node count, its length and its triples, whatever their order."""
    found = {}
    for name in sorted(os.listdir(folder)):
        with open(os.path.join(folder, name), "rb") as file:
            page = file.read()
        nodes = int.from_bytes(page[:2], "little")
        found[name] = nodes, len(page), sorted(reference.entries_of(nodes, page))
    return found


def by_program(program, script, folder):
    done = subprocess.run([program], input=script.encode(), stdout=subprocess.PIPE, cwd=folder, check=True)
    return done.stdout.decode().splitlines()


def by_reference(script, folder):
    here = os.getcwd()
    os.chdir(folder)
    try:
        return "\n".join(reference.run(script)).splitlines()
    finally:
        os.chdir(here)


def agree(program, name, script, given):
    with tempfile.TemporaryDirectory() as room:
        ours, theirs = os.path.join(room, "program"), os.path.join(room, "reference")
        for folder in (ours, theirs):
            shutil.copytree(DATA, folder)
            for page, content in given.items():
                with open(os.path.join(folder, page), "wb") as file:
                    file.write(content)
        printed, wanted = by_program(program, script, ours), by_reference(script, theirs)
        for number, (a, b) in enumerate(zip(printed, wanted), 1):
            if a != b:
                print(f"{name}: printed line {number}: {a}\n  the reference says: {b}")
                return False
        if len(printed) != len(wanted) or pages(ours) != pages(theirs):
            print(f"{name}: the lengths or the saved pages differ")
            return False
    return True


def scripts(words):
    if words:
        for seed in range(int(words[0]), int(words[1]) + 1):
            yield f"seed {seed}", *random_script(seed)
        return
    samples = os.path.join(TOP, "samples")
    files = [os.path.join(TOP, "crates", "day", "stdin")]
    for path in files + [os.path.join(samples, name) for name in sorted(os.listdir(samples))]:
        with open(path) as file:
            yield os.path.relpath(path, TOP), file.read(), {}


def main():
    program = os.path.abspath(sys.argv[1])
    count = lines = failed = 0
    for name, script, given in scripts(sys.argv[2:]):
        count += 1
        lines += len(script.splitlines())
        failed += not agree(program, name, script, given)
    print(f"{count} scripts of {lines} lines compared, {failed} differ")
    sys.exit(1 if failed else 0)


main()
