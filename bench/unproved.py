#!/usr/bin/env python3
"""Builds a program without its proof, so that two versions can be measured in minutes: bench/unproved.py FOLDER OUT

    bench/unproved.py crates/hg_pushd /tmp/hg_pushd        the program itself
    bench/unproved.py --checks crates/hg_pushd OUT         the same with its checks, to be tried and not measured
    bench/unproved.py --bench keys /tmp/keys_speed         that of bench/keys, over the crates of the last commit

`rt try` makes one module of a program and all that it stands on, with checks, and compiles it as it is. Here the module
is taken, its checks and the fills of its variables are left out, and it is compiled with -O2. A pause between two looks
at a lock, for which that module has nothing, is the processor's, and functions are written into their callers as the
sources ask. A proved program is inlined further than that. So compare what was built so with nothing but what was built
so.

With `--checks` they stay, except for those of addresses: where one fails, the program is ended. `make run` makes its
program so, at build/unproved/hg_pushd.
"""
import os
import re
import subprocess
import sys
import tempfile

TOP = os.path.dirname(os.path.dirname(os.path.abspath(__file__)))
# stands in the place of the toolchain's clang: it keeps the module of the program and ends there
WRAPPER = """#!/bin/sh
for it in "$@"; do
    if [ -f "$it" ] && [ "$(stat -c %s "$it")" -gt 100000 ]; then cp "$it" {kept}; exit 1; fi
done
exec {clang} "$@"
"""
# a variable that is filled before its first use, and a check
FILL = re.compile(r"\s*call void @llvm\.memset\.p0\.i64\(ptr %r\d+, i8 -86, ")
CHECK = re.compile(r"\s*(?:tail )?call void @\"rattle-llvm-checks::")
# a function that the sources ask to be written into its callers, or not to be; its line in the module
HINTED = re.compile(r"#\[inline\((always|never)\)\]\n(?:\s*#\[.*\n)*\s*(?:pub(?:\([^)]*\))? )?fn (\w+)")
DEFINED = re.compile(r'^define .*@"(\w+(?:::\w+)*)(?:::<[^"]*>)?"\(.*(?= #\d+ )')
ATTRIBUTES = re.compile(r' sanitize_address| "probe-stack"="inline-asm"| "stack-probe-size"="\d+"')
TARGET = ["--target=x86_64-unknown-linux-gnu", "-x", "ir"]
OPTIONS = ["-march=x86-64", "-mllvm", "-no-trap-after-noreturn", "-ffunction-sections", "-fdata-sections", "-fPIE"]


def toolchain():
    page = subprocess.run(["rt", "doc"], capture_output=True, text=True, check=True).stdout.strip()
    return os.path.dirname(page)


def beside(kit, place, clang):
    """A toolchain of links to that one, with another clang."""
    for folder in ("", "bin", "toolchain", "toolchain/bin"):
        os.makedirs(f"{place}/{folder}", exist_ok=True)
        for name in os.listdir(f"{kit}/{folder}"):
            if f"{folder}/{name}".lstrip("/") not in ("bin", "toolchain", "toolchain/bin", "toolchain/bin/clang"):
                os.symlink(f"{kit}/{folder}/{name}", f"{place}/{folder}/{name}")
    # the toolchain is where its command lies, and not where a link leads
    for name in ("rt", "rtlib.py"):
        os.remove(f"{place}/bin/{name}")
        with open(f"{kit}/bin/{name}", "rb") as source, open(f"{place}/bin/{name}", "wb") as target:
            target.write(source.read())
    with open(f"{place}/toolchain/bin/clang", "w", encoding="utf-8") as file:
        file.write(clang)
    os.chmod(f"{place}/toolchain/bin/clang", 0o755)


def hints(crates):
    """What the sources of all crates ask for: by the crate, the module and the name of a function."""
    told = {}
    for at, _, names in os.walk(crates):
        for name in names:
            if name.endswith(".rt") and "/src" in at and "/out/" not in at:
                with open(f"{at}/{name}", encoding="utf-8") as file:
                    for hint, function in HINTED.findall(file.read()):
                        told[at.split("/src")[0].rpartition("/")[2], name.removesuffix(".rt"), function] = hint
    return told


def hinted(line, told):
    """The line of a function, with what the sources ask for: `rt try` leaves that out."""
    found = DEFINED.match(line)
    if not found:
        return line
    path = found[1].split("::")
    hint = told.get((path[0], path[1] if len(path) > 2 else "lib", path[-1]))
    if hint is None:
        return line
    return f"{found[0]} {'alwaysinline' if hint == 'always' else 'noinline'}{line[found.end():]}"


def stripped(source, target, told, keeps_checks):
    """The module without what `rt try` adds to it."""
    pauses = False
    with open(source, encoding="utf-8") as lines, open(target, "w", encoding="utf-8") as out:
        for line in lines:
            if FILL.match(line) or not keeps_checks and CHECK.match(line):
                continue
            line = hinted(line, told)
            if line.startswith("attributes "):
                line = ATTRIBUTES.sub("", line).replace('"frame-pointer"="all"', '"frame-pointer"="none"')
            out.write(line)
            if line.startswith('define internal void @"core::hint::spin_loop"()'):
                pauses = True
            elif pauses and line == "start:\n":
                out.write('  call void asm sideeffect "pause", ""()\n')
                pauses = False


def build(folder, out, keeps_checks=False):
    kit = toolchain()
    clang = f"{kit}/toolchain/bin/clang"
    with tempfile.TemporaryDirectory() as place:
        beside(kit, f"{place}/kit", WRAPPER.format(kept=f"{place}/module.bc", clang=clang))
        tried = subprocess.run([sys.executable, f"{place}/kit/bin/rt", "try"], cwd=folder, stdin=subprocess.DEVNULL,
                               capture_output=True, text=True, errors="replace", check=False)
        if not os.path.exists(f"{place}/module.bc"):
            sys.exit(tried.stderr[-3000:])
        subprocess.run([clang, *TARGET, "-O0", "-S", "-emit-llvm", f"{place}/module.bc", "-o", f"{place}/read.ll"], check=True)
        told = hints(os.path.dirname(os.path.abspath(folder)))
        stripped(f"{place}/read.ll", f"{place}/made.ll", told, keeps_checks)
        options = [*OPTIONS, "-O1" if keeps_checks else "-O2"]
        subprocess.run([clang, *TARGET, *options, "-c", f"{place}/made.ll", "-o", f"{place}/made.o"], check=True)
        subprocess.run(["cc", "-pie", "-Wl,--gc-sections", f"{place}/made.o", f"{kit}/c/libos_c.a", f"{kit}/c/liblibc_c.a",
                        "-o", out, "-lpthread", "-lm"], check=True)


def bench(name, out):
    """The program of a benchmark, in a scratch repository, as its run.sh makes it."""
    with open(f"{TOP}/bench/{name}/run.sh", encoding="utf-8") as file:
        program, crates = re.search(rf"^scratch_program {name} (\w+) '([^']*)'", file.read(), re.M).groups()
    with tempfile.TemporaryDirectory() as place:
        tree = subprocess.run(["git", "-C", TOP, "archive", "HEAD", "HANDLES", "crates.txt", "crates"],
                              stdout=subprocess.PIPE, check=True).stdout
        subprocess.run(["tar", "-x", "-C", place], input=tree, check=True)
        subprocess.run(["cp", "-r", f"{TOP}/bench/{name}/program", f"{place}/crates/{program}"], check=True)
        for at, _, files in os.walk(f"{place}/crates/{program}"):
            for it in files:
                os.rename(f"{at}/{it}", f"{at}/{it.removesuffix('.txt')}")
        with open(f"{place}/crates.txt", "a", encoding="utf-8") as file:
            file.write(f"{program}: {crates}\n")
        subprocess.run(["git", "init", "-q", place], check=True)
        build(f"{place}/crates/{program}", out)


def main(words):
    if len(words) == 3 and words[0] == "--bench":
        bench(words[1], os.path.abspath(words[2]))
    elif len(words) == 3 and words[0] == "--checks":
        build(words[1], os.path.abspath(words[2]), keeps_checks=True)
    elif len(words) == 2:
        build(words[0], os.path.abspath(words[1]))
    else:
        print(__doc__.strip())
        return 2
    return 0


if __name__ == "__main__":
    sys.exit(main(sys.argv[1:]))
