#!/usr/bin/env python3
"""What the scripts know of the crates: crates.txt, sums of what they are made of, and what a passed rt ci left in crates/*/out.

usage: tools/crates.py stamp [NAME..]   a sum of all that these crates, or all, and those below them are made of
       tools/crates.py keep             right after rt ci passed: notes each crate's sum in crates/NAME/out/proved, which rt ci removes when it begins
"""
import functools, hashlib, os, subprocess, sys

ROOT = os.path.dirname(os.path.dirname(os.path.abspath(__file__)))


def text_of(file):
    try:
        with open(file, encoding="utf-8") as it:
            return it.read()
    except OSError:
        return ""


@functools.lru_cache(maxsize=None)
def lines():
    """The crates of crates.txt, each with whether it is a static library and the crates that it names."""
    found = {}
    for line in text_of(f"{ROOT}/crates.txt").split("\n"):
        head, colon, deps = line.partition("#")[0].partition(":")
        if colon:
            found[head.split()[0]] = "staticlib" in head.split()[1:], deps.split()
    return found


def static_libraries():
    return [name for name, (is_static, _) in lines().items() if is_static]


@functools.lru_cache(maxsize=None)
def below(name):
    """The repository's crates below one, each after those that it uses."""
    found = []
    for dep in lines()[name][1]:
        if dep in lines():
            found += [it for it in [*below(dep), dep] if it not in found]
    return found


@functools.lru_cache(maxsize=None)
def rt(*words):
    return subprocess.run(["rt", *words], stdout=subprocess.PIPE, text=True, check=True).stdout.strip()


@functools.lru_cache(maxsize=None)
def own(name):
    """A sum of one crate's line of crates.txt and files, and of the toolchain."""
    total = hashlib.sha256(repr((rt("version"), lines()[name])).encode())
    for part in ("src", "specs", "proofs"):
        for at, folders, files in os.walk(f"{ROOT}/crates/{name}/{part}"):
            folders.sort()
            for file in sorted(files):
                with open(f"{at}/{file}", "rb") as it:
                    total.update(repr((os.path.relpath(f"{at}/{file}", ROOT), it.read())).encode())
    return total.hexdigest()


def stamp(*names):
    every = sorted({it for name in names or lines() for it in [*below(name), name]})
    return hashlib.sha256(repr([(it, own(it)) for it in every]).encode()).hexdigest()


def keep():
    for name in lines():
        os.makedirs(f"{ROOT}/crates/{name}/out", exist_ok=True)
        with open(f"{ROOT}/crates/{name}/out/proved", "w", encoding="utf-8") as it:
            it.write(stamp(name) + "\n")


def libraries_are_left(name):
    """Whether the libraries below a crate stand in out/ as a passed rt ci left them: rt's other commands write a stamp beside theirs."""
    out = [(it, f"{ROOT}/crates/{it}/out") for it in below(name)]
    return all(text_of(f"{at}/proved").strip() == stamp(it) and os.path.isdir(f"{at}/rlib/{it}.rlib") and not os.path.exists(f"{at}/rlib/stamp") for it, at in out)


def words(name):
    """What rattle is given for a library or static library over the libraries in out/."""
    kit = os.path.dirname(rt("doc"))
    said = ["--crate-name", name, "src/lib.rt", "--extern", f"std={kit}/rlibs/std.rlib", "-L", f"dependency={kit}/rlibs"]
    for dep in lines()[name][1]:
        at = f"{ROOT}/crates/{dep}/out/rlib" if dep in lines() else f"{kit}/rlibs"
        said += ["--extern", f"{dep}={at}/{dep}.rlib"]
    for it in below(name):
        said += ["-L", f"dependency={ROOT}/crates/{it}/out/rlib"]
    said += ["--crate-type", "staticlib"] if lines()[name][0] else []
    return [*said, "--antt-project", f"{kit}/rattle/logic/antt-project.json", "--logic-built", f"{kit}/logic_built", "--jobs", "1"]


def lanes():
    """How many checks run side by side: one a processor, as many as memory holds."""
    free = next((int(line.split()[1]) for line in text_of("/proc/meminfo").split("\n") if line.startswith("MemAvailable:")), 0)
    return max(1, min(len(os.sched_getaffinity(0)), free // 2_000_000))


if __name__ == "__main__":
    if sys.argv[1:2] == ["stamp"] and all(it in lines() for it in sys.argv[2:]):
        print(stamp(*sys.argv[2:]))
    elif sys.argv[1:] == ["keep"]:
        keep()
    else:
        sys.exit(__doc__.strip())
