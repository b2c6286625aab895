"""Compiles a program of bench/, or the desk, with no proof, from what `rt try` makes of it, without the checks of a trial."""
import os
import re
import shutil
import subprocess

from desk_tools.demo import unproved
from desk_tools.tree import TOP

# What a trial checks at each step, and a proved program does not. Each is one line of LLVM's text.
CHECKS = re.compile(
    r'(?m)^  (call void @"rattle-llvm-checks::[^"]*"\(|call void @llvm\.trap\(\)|'
    r"call void @llvm\.memset\.p0\.i64\(ptr %r\d+, i8 -86,).*\n"
)


def libraries_of(source):
    """The libraries that the `use` lines of a program name."""
    with open(source, encoding="utf-8") as file:
        return sorted(set(re.findall(r"(?m)^use (\w+)", file.read())) - {"std"})


def needed(names, lines):
    """The crates of the tree among these libraries and below them, from the lines of crates.txt by crate."""
    found, open_names = set(), list(names)
    while open_names:
        name = open_names.pop()
        if name in lines and name not in found:
            found.add(name)
            open_names += lines[name]
    return found


def lines_of(path):
    """What each crate of crates.txt lies above."""
    with open(path, encoding="utf-8") as file:
        parted = [line.partition("#")[0].partition(":") for line in file]
    return {name.split()[0]: below.split() for name, colon, below in parted if colon}


def lay_out(source, name, tree):
    """Copies the crates that a program needs to a folder, and the program as one crate more. The folder of that one."""
    lines, libraries = lines_of(f"{TOP}/crates.txt"), libraries_of(source)
    for crate in needed(libraries, lines):
        for part in ("src", "specs", "proofs"):
            shutil.copytree(f"{TOP}/crates/{crate}/{part}", f"{tree}/crates/{crate}/{part}")
    for part in ("src", "specs", "proofs"):
        os.makedirs(f"{tree}/crates/{name}/{part}")
    shutil.copy(source, f"{tree}/crates/{name}/src/main.rt")
    for part in ("specs", "proofs"):
        open(f"{tree}/crates/{name}/{part}/Lib.antt", "x", encoding="utf-8").close()
    shutil.copy(f"{TOP}/HANDLES", f"{tree}/HANDLES")
    with open(f"{tree}/crates.txt", "x", encoding="utf-8") as file:
        for crate in sorted(needed(libraries, lines)):
            print(f"{crate}: {' '.join(lines[crate])}", file=file)
        print(f"{name}: {' '.join(libraries)}", file=file)
    subprocess.run(["git", "init", "-q", tree], check=True)
    return f"{tree}/crates/{name}"


def without_checks(compiler, module, room):
    """Writes the module as text without the checks of a trial. The name of that file."""
    text = f"{room}/module.ll"
    reads = ["-O0", "-Xclang", "-disable-O0-optnone", "-S", "-emit-llvm", "-x", "ir"]
    unproved.run([compiler, "--target=x86_64-unknown-linux-gnu", *reads, module, "-o", text], room)
    with open(text, encoding="utf-8") as file:
        code = CHECKS.sub("", file.read())
    with open(text, "w", encoding="utf-8") as file:
        file.write(code)
    return text


def made(crate, room):
    """Compiles the program of a crate's folder. Its path in `room`."""
    compiler, words = unproved.module_of(crate, room)
    module = unproved.module_in(words)
    text = without_checks(compiler, module, room)
    kept = [
        text if word == module else word
        for word in words[1:]
        if not word.startswith(unproved.OF_TRIALS)
    ]
    unproved.run([compiler, *kept, "-O2"], room)
    return unproved.linked(os.path.dirname(os.path.dirname(compiler)), words, room)


def compiled(source, room):
    """Compiles a program of bench/ in an empty folder. Its path there."""
    name = "bench_" + os.path.basename(source).removesuffix(".program")
    return made(lay_out(source, name, f"{room}/tree"), room)


def desk(room):
    """Compiles the desk's own program in an empty folder. Its path there."""
    unproved.copy_sources(TOP, f"{room}/tree")
    return made(f"{room}/tree/crates/{unproved.CRATE}", room)
