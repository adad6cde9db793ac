#!/usr/bin/env python3
"""Tries each must-fail edit by itself in a copy of the crates, and keeps all that the prover says of it.

usage: tests/edits/tried.py LOGS [CRATE..]

rt ci tries the edits too and tells the first refusal of each. Here the whole of it is wanted: LOGS/CRATE/EDIT/.log. As many edits are
tried beside each other as there are processors, but at most four; each crate has a copy of all crates for the while.
"""
import os
import shutil
import subprocess
import sys
import tempfile
from concurrent.futures import ThreadPoolExecutor

PARTS = ("src", "specs", "proofs")
COPIES = min(4, os.cpu_count() or 1)


def edits(crate):
    folder = f"crates/{crate}/must-fail"
    return sorted(it[: -len(".edit")] for it in os.listdir(folder) if it.endswith(".edit")) if os.path.isdir(folder) else []


def changed(edit, crate):
    """The texts that the edit makes, by their paths in the crate: each `old:` stands once in what the earlier pairs made."""
    texts, path, old = {}, "", ""
    with open(edit, encoding="utf-8") as lines:
        for line in lines.read().split("\n"):
            if line.startswith("file: "):
                path = line[len("file: ") :].strip()
            elif line.startswith("old: "):
                old = line[len("old: ") :]
            elif line.startswith("new:"):
                if path not in texts:
                    with open(f"{crate}/{path}", encoding="utf-8") as file:
                        texts[path] = file.read()
                if texts[path].count(old) != 1:
                    raise ValueError(f"{edit}: an 'old:' text is in {path} {texts[path].count(old)} times")
                texts[path] = texts[path].replace(old, line[len("new:") :].removeprefix(" "))
    return texts


def put(folder, texts):
    for path, text in texts.items():
        with open(f"{folder}/{path}", "w", encoding="utf-8") as file:
            file.write(text)


def tried(top, logs, crate):
    folder = f"{top}/crates/{crate}"
    for name in edits(crate):
        texts = changed(f"crates/{crate}/must-fail/{name}.edit", f"crates/{crate}")
        put(folder, texts)
        said = subprocess.run(["rt", "check", "--jobs", "1"], cwd=folder, stdin=subprocess.DEVNULL, stdout=subprocess.PIPE, stderr=subprocess.STDOUT)
        put(folder, {path: open(f"crates/{crate}/{path}", encoding="utf-8").read() for path in texts})
        os.makedirs(f"{logs}/{crate}/{name}", exist_ok=True)
        with open(f"{logs}/{crate}/{name}/.log", "wb") as file:
            file.write(said.stdout)
        print(f"edits: {crate}/{name} tried", flush=True)


def copied(work, number):
    top = f"{work}/{number}"
    os.makedirs(f"{top}/crates")
    shutil.copy("crates.txt", top)
    for crate in os.listdir("crates"):
        for part in PARTS:
            if os.path.isdir(f"crates/{crate}/{part}"):
                shutil.copytree(f"crates/{crate}/{part}", f"{top}/crates/{crate}/{part}")
    return top


def main(logs, names):
    crates = [it for it in names or sorted(os.listdir("crates")) if edits(it)]
    # The dearest crates first, so that the copies are done at about the same time.
    crates.sort(key=lambda it: -len(edits(it)) * sum(len(files) for _, _, files in os.walk(f"crates/{it}/src")))
    with tempfile.TemporaryDirectory() as work:
        free = [copied(work, number) for number in range(COPIES)]

        def one(crate):
            top = free.pop()
            try:
                tried(top, logs, crate)
            finally:
                free.append(top)

        with ThreadPoolExecutor(COPIES) as pool:
            list(pool.map(one, crates))


if __name__ == "__main__":
    main(sys.argv[1], sys.argv[2:])
