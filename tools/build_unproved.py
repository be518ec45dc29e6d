"""Builds a program without any proof, as a proved one is built, and keeps it.

`rt try` compiles what it runs with checks and without optimising, and keeps nothing. It is run here with a kit whose
compiler puts aside what it is to compile. The checks are left out of it, what the sources say of inlining is put back,
and it is compiled and linked by the words of a proved program. It takes some four minutes of a processor.
"""
import os
import re
import shutil
import subprocess
import sys
import tempfile

TOP = os.path.dirname(os.path.dirname(os.path.realpath(__file__)))
KIT = os.path.dirname(os.path.dirname(os.path.realpath(shutil.which("rt") or sys.exit("there is no rt"))))
TARGET = "x86_64-unknown-linux-gnu"

# Takes what is compiled with checks of memory, and its words; what rt tries the compiler with is compiled.
COMPILER = """#!/bin/sh
case "$*" in
*-fsanitize=address*) mv module.bc {room}/module.bc && printf '%s\\n' "$@" > {room}/words; exit 1 ;;
esac
exec {clang} "$@"
"""
TRIED = ["-O0", "-fsanitize=address"]
PROVED = ["-O3", "-Xclang", "-fmerge-functions", "-mllvm", "-mergefunc-use-aliases"]
CHECK = 'call void @"rattle-llvm-checks::'
LEFT_OUT = (" sanitize_address", ' "frame-pointer"="all"')
APART = "noinline"
MARKS = {"#[inline(always)]": "alwaysinline", "#[inline(never)]": "noinline", "#[cold]": "cold noinline"}


def link_all(folder, to, but=()):
    """Makes a folder in which each entry of another stands as a link, but for these."""
    os.makedirs(to)
    for name in os.listdir(folder):
        if name not in but:
            os.symlink(f"{folder}/{name}", f"{to}/{name}")


def kit_in(room):
    """A kit as the one that is there, but for its compiler. `rt` knows its kit by its own place, and is copied. It asks
    `rattle`, which is left out, for hints alone."""
    link_all(KIT, f"{room}/kit", ("bin", "toolchain"))
    link_all(f"{KIT}/bin", f"{room}/kit/bin", ("rt", "rtlib.py", "rattle"))
    link_all(f"{KIT}/toolchain", f"{room}/kit/toolchain", ("bin",))
    link_all(f"{KIT}/toolchain/bin", f"{room}/kit/toolchain/bin", ("clang",))
    for name in ("rt", "rtlib.py"):
        shutil.copy(f"{KIT}/bin/{name}", f"{room}/kit/bin/{name}")
    compiler = f"{room}/kit/toolchain/bin/clang"
    with open(compiler, "w", encoding="utf-8") as file:
        file.write(COMPILER.format(room=room, clang=f"{KIT}/toolchain/bin/clang"))
    os.chmod(compiler, 0o755)


def put_aside(crate, room):
    """Has `rt try` compile the program. The module and the words that it is compiled by stand in the room then."""
    kit_in(room)
    how = {**os.environ, "PATH": f"{room}/kit/bin:{os.environ['PATH']}"}
    words = [f"{TOP}/tools/rt_once", "try", "--steps", "1"]
    ran = subprocess.run(words, cwd=f"{TOP}/crates/{crate}", stdin=subprocess.DEVNULL, capture_output=True, env=how)
    if not os.path.exists(f"{room}/words"):
        sys.exit((ran.stdout[-2000:] + ran.stderr[-2000:]).decode("utf-8", "replace"))


def owner_of(header):
    """How that begins and ends which a symbol has between the module of a function and its name: with a type, and with
    a trait, as the head of the impl says."""
    head = header
    for _ in range(3):
        head = re.sub(r"<[^<>]*>", "", head)
    trait, is_of_trait, of = head.removeprefix("impl").partition(" where ")[0].rstrip(" {").partition(" for ")
    named = (of if is_of_trait else trait).strip().split("::")[-1]
    begin = named if named.isidentifier() and len(named) > 1 else ""
    return begin, trait.strip().split("::")[-1] if is_of_trait else begin


def marks_in(path):
    """The functions of a file: each one's name, the head of its impl, and its marks."""
    header, marks = None, []
    with open(path, encoding="utf-8") as file:
        for line in file:
            word = line.strip()
            if line.startswith(("impl", "trait", "pub trait")):
                header = word
            elif line.startswith("}"):
                header = None
            if word in MARKS:
                marks.append(MARKS[word])
            elif word and not word.startswith(("#[", "//")):
                found = re.match(r"(?:pub(?:\(\w+\))? )?(?:const )?(?:unsafe )?fn (\w+)", word)
                if found:
                    yield found[1], header, " ".join(dict.fromkeys(" ".join(marks).split()))
                marks = []


def marks_of(folders):
    """The marks of all functions of these crates: by the path of the module and the name, a list with owners."""
    table = {}
    for folder in folders:
        for path, _, files in os.walk(f"{folder}/src"):
            for name in (it for it in files if it.endswith(".rt")):
                parts = os.path.relpath(f"{path}/{name}", f"{folder}/src")[:-3].split("/")
                module = [os.path.basename(folder), *(it for it in parts if it not in ("lib", "main", "mod"))]
                for function, header, marks in marks_in(f"{path}/{name}"):
                    table.setdefault(("::".join(module), function), []).append((header, marks))
    return table


def marks_on(symbol, table):
    """The marks of the function that has this symbol, where it is known which one that is."""
    *path, name = re.sub(r"::<.*", "", symbol).split("::")
    for length in range(len(path), 0, -1):
        known = table.get(("::".join(path[:length]), name))
        if known:
            owner = "::".join(path[length:])
            fits = {marks for header, marks in known if is_owner(owner, header)}
            return fits.pop() if len(fits) == 1 else ""
    return ""


def is_owner(owner, header):
    if not owner or header is None:
        return not owner and header is None
    begin, end = owner_of(header)
    return owner.startswith(begin) and owner.endswith(end)


def text_file(path, mode):
    return open(path, mode, encoding="utf-8", errors="surrogateescape")


def mend(source, target, apart):
    """Writes a module without its checks and with the marks of its functions. Those whose symbols match stay apart."""
    crates = [f"{TOP}/crates/{it}" for it in os.listdir(f"{TOP}/crates")]
    table = marks_of([*crates, *(f"{KIT}/rattle/{it}" for it in os.listdir(f"{KIT}/rattle"))])
    groups, plain = {}, ""
    with text_file(source, "r") as lines, text_file(target, "w") as out:
        for line in (it for it in lines if CHECK not in it):
            if line.startswith("define internal"):
                symbol = line.split('"')[1]
                marks = APART if re.search(apart, symbol) else marks_on(symbol, table)
                group = groups.setdefault(marks, 1000 + len(groups)) if marks else 0
                line = line.replace(") #0 ", f") #{group} ")
            elif line.startswith("attributes #"):
                line = without_checks(line)
                plain = line if line.startswith("attributes #0 ") else plain
            out.write(line)
        for marks, group in groups.items():
            out.write(plain.replace("#0", f"#{group}").replace("{ ", f"{{ {marks} "))


def without_checks(line):
    """Attributes, for the processor that a proved program is built for."""
    for it in LEFT_OUT:
        line = line.replace(it, "")
    return line.replace('"target-cpu"="x86-64"', '"target-cpu"="x86-64-v2"').replace("{ }", "{ nounwind }")


def build(crate, program, apart="^$"):
    """Builds the program of a crate, unproved. A function whose symbol matches isn't put into others."""
    clang = f"{KIT}/toolchain/bin/clang"
    with tempfile.TemporaryDirectory(prefix="unproved-") as room:
        put_aside(crate, room)
        text = ["-S", "-emit-llvm", "-Xclang", "-disable-llvm-passes", "-x", "ir", "module.bc", "-o", "module.ll"]
        subprocess.run([clang, f"--target={TARGET}", *text], cwd=room, check=True)
        mend(f"{room}/module.ll", f"{room}/mended.ll", apart)
        with open(f"{room}/words", encoding="utf-8") as file:
            words = [it for it in file.read().split("\n") if it and it not in TRIED]
        words = ["mended.ll" if it == "module.bc" else it for it in words]
        subprocess.run([clang, *words, *PROVED], cwd=room, check=True)
        link = ["--target", TARGET, "--toolchain", f"{KIT}/toolchain", "-o", program, f"{room}/module.o"]
        link += [f"{KIT}/c/libos_c.a", f"{KIT}/c/liblibc_c.a"]
        subprocess.run([f"{KIT}/bin/rattle-link", *link], check=True, stdout=subprocess.DEVNULL)
