#!/usr/bin/env python3
"""Makes the program for other systems from the crates that were proved here.

    tools/elsewhere.py FOLDER
    tools/elsewhere.py --sum    prints a sum of what is made into them beside the program's own sources

FOLDER gets aarch64-linux/jps, x86_64-linux-static/jps, wasm64/jps.wasm with jps.mjs, and
x86_64-windows/jps.exe, and the lines of dist/MANIFEST that tell of them (`lines`). The libraries are those
that `./jps --prove` or `rt ci` left. That they are of the program that was proved is seen by its own crate,
which is built over them anew: it has to be crates/jps/out/jps, byte by byte.

The kit compiles the ARM program as it compiles that one. For WebAssembly and Windows its clang is given the
LLVM module that the proved build makes, with the kit's own flags but for those of the processor; a script in
its place keeps them.
"""
import concurrent.futures
import filecmp
import hashlib
import importlib.util
import os
import re
import shlex
import subprocess
import sys
import tempfile

TOP = os.path.dirname(os.path.dirname(os.path.abspath(__file__)))

# The Debian packages whose tools and libraries take part.
PACKAGES = [
    "gcc-12",
    "libc6-dev",
    "gcc-12-aarch64-linux-gnu",
    "libc6-dev-arm64-cross",
    "libclang-rt-14-dev-wasm64",
    "gcc-mingw-w64-x86-64-win32",
    "mingw-w64-x86-64-dev",
    "binutils-mingw-w64-x86-64",
]

# What each file is for.
TARGETS = {
    "aarch64-linux/jps": "aarch64-unknown-linux-gnu",
    "x86_64-linux-static/jps": "x86_64-unknown-linux-gnu",
    "wasm64/jps.wasm": "wasm64-unknown-unknown",
    "wasm64/jps.mjs": "wasm64-unknown-unknown",
    "x86_64-windows/jps.exe": "x86_64-w64-windows-gnu",
}

# The numbers of two sections of a WebAssembly module.
TABLE, ELEMENTS = 4, 9

BUILTINS = "/usr/lib/llvm-14/lib/clang/14.0.6/lib/wasi/libclang_rt.builtins-wasm64.a"

# Files are opened, read and closed by functions of edge/windows.c, as those of its C library know no UTF-8.
TURNED = ["open", "read", "write", "close", "lseek", "statx"]

# Keeps the module and the flags that clang is given, and then is clang.
KEEPER = """#!/bin/sh
for it in "$@"; do
    printf '%s\\n' "$it"
    case $it in *.bc) cp "$it" "{kept}.bc" ;; esac
done >"{kept}.flags"
exec "{clang}" "$@"
"""


def build_tool():
    """tools/build.py as a module."""
    spec = importlib.util.spec_from_file_location("build", f"{TOP}/tools/build.py")
    module = importlib.util.module_from_spec(spec)
    sys.dont_write_bytecode = True
    spec.loader.exec_module(module)
    return module


def call(words, folder=TOP):
    """Runs a command, and gives what it told; where it fails, ends with that."""
    ran = subprocess.run(
        words, cwd=folder, stdout=subprocess.PIPE, stderr=subprocess.STDOUT, text=True, check=False
    )
    if ran.returncode:
        sys.exit(f"{ran.stdout}elsewhere: failed: {shlex.join(words)}")
    return ran.stdout


def sum_of(path):
    """The SHA-256 of a file."""
    with open(path, "rb") as file:
        return hashlib.sha256(file.read()).hexdigest()


def sections_of(module):
    """The sections of a WebAssembly module, each with its number."""
    at = 8
    while at < len(module):
        size, shift, behind = 0, 0, at + 1
        while module[behind] > 127:
            size |= (module[behind] & 127) << shift
            shift, behind = shift + 7, behind + 1
        end = behind + 1 + (size | module[behind] << shift)
        yield module[at], module[at:end]
        at = end


def drop_table(path):
    """Takes out the linker's table of functions: none is called by it, and Node 20 refuses one for 64
    bits."""
    with open(path, "rb") as file:
        module = file.read()
    found = list(sections_of(module))
    if any(number == ELEMENTS for number, _ in found):
        sys.exit("elsewhere: the module calls functions by a table, which Node 20 refuses")
    with open(path, "wb") as file:
        file.write(module[:8] + b"".join(it for number, it in found if number != TABLE))


class Maker:
    """The libraries that are there, and a folder to work in."""

    def __init__(self, room):
        self.room = room
        self.build = build_tool().Build("jps", os.devnull, 1)
        self.kit = self.build.kit
        self.clang = f"{self.kit}/toolchain/bin/clang"
        os.makedirs(f"{room}/libs")
        for name in self.build.names[:-1]:
            os.symlink(self.library(name), f"{room}/libs/{name}.rlib")
        self.build.out = room

    def library(self, name):
        """The library of a crate: of ./jps --prove, or else of rt."""
        kept = f"{self.build.out}/libs/{name}.rlib"
        found = kept if self.build.is_kept(name) else f"{TOP}/crates/{name}/out/rlib/{name}.rlib"
        if not os.path.isdir(found):
            sys.exit(f"elsewhere: crate {name} was not proved here: ./jps --prove or rt ci does that")
        return found

    def toolchain(self, name):
        """The kit's toolchain, whose clang keeps what it is given, in NAME.bc and NAME.flags."""
        made, kept = f"{self.room}/{name}-toolchain", f"{self.room}/{name}"
        os.makedirs(f"{made}/bin")
        os.symlink(f"{self.kit}/toolchain/lib", f"{made}/lib")
        for it in os.listdir(f"{self.kit}/toolchain/bin"):
            if it != "clang":
                os.symlink(f"{self.kit}/toolchain/bin/{it}", f"{made}/bin/{it}")
        with open(f"{made}/bin/clang", "w", encoding="ascii") as file:
            file.write(KEEPER.format(kept=kept, clang=self.clang))
        os.chmod(f"{made}/bin/clang", 0o755)
        return made

    def crate(self, name, made, *more):
        """Proves and builds a program or a static library. Gives the line of its verdict."""
        words = self.build.words(name, 1)
        words = [f"{self.kit}/bin/rattle", "build", *words[: words.index("--links") + 2], *more]
        told = call([*words, "-o", f"{self.room}/{made}"], f"{TOP}/crates/{name}")
        return re.search(r"^logic=proved .*$", told, re.M).group()

    def flags(self, name):
        """The flags that clang was given, but for those of the system and the processor."""
        with open(f"{self.room}/{name}.flags", encoding="ascii") as file:
            given = file.read().split("\n")
        pairs = [(it, after) for it, after in zip(given, given[1:]) if it == "-mllvm" and "x86" not in after]
        return [it for pair in pairs for it in pair]

    def program(self):
        """The program's own crate for x86-64, with its module; seen to be the one that was proved."""
        self.crate("jps", "jps.o", "--toolchain", self.toolchain("program"))
        call(self.build.links())
        if not filecmp.cmp(f"{self.room}/jps", f"{TOP}/crates/jps/out/jps", shallow=False):
            sys.exit("elsewhere: the libraries that are there are not those of crates/jps/out/jps")

    def static(self, to):
        """Any Linux on x86-64: the same code, with the C library in it."""
        of_kit = [f"{self.kit}/c/libos_c.a", f"{self.kit}/c/liblibc_c.a"]
        call(["gcc-12", "-static", "-s", "-Wl,--build-id=none", "-o", to, f"{self.room}/jps.o", *of_kit])

    def arm(self, to):
        """Linux on ARM, with the C library in it. Gives the verdict's line."""
        target = ["--target", "aarch64-unknown-linux-gnu", "--toolchain", f"{self.kit}/toolchain"]
        verdict = self.crate("jps", "arm.o", *target)
        words = [
            "aarch64-linux-gnu-gcc-12",
            "-static",
            "-s",
            "-O2",
            "-Wall",
            "-Werror",
            "-Wl,--build-id=none",
        ]
        call([*words, "-o", to, f"{self.room}/arm.o", f"{TOP}/edge/linux.c"])
        return verdict

    def wasm(self, to):
        """WebAssembly. Gives the verdict's line."""
        room = self.room
        kind = ["--crate-type", "staticlib", "--toolchain", self.toolchain("page")]
        verdict = self.crate("page_calls", "page.a", *kind)
        words = [self.clang, "--target=wasm64-unknown-unknown", "-O3", "-msimd128", "-mbulk-memory", "-c"]
        tell = ["-Wall", "-Werror", "-Wno-override-module", "-ffreestanding", "-fno-ident"]
        call(
            [
                *words,
                *self.flags("page"),
                "-Wno-override-module",
                "-x",
                "ir",
                f"{room}/page.bc",
                "-o",
                f"{room}/page.o",
            ]
        )
        call([*words, *tell, f"{TOP}/edge/wasm.c", "-o", f"{room}/heap.o"])
        os.symlink(f"{self.kit}/toolchain/bin/ld.lld", f"{room}/wasm-ld")
        links = [f"{room}/wasm-ld", "-mwasm64", "--no-entry", "--gc-sections", "--strip-all", "--stack-first"]
        links += ["-z", "stack-size=1048576", "--max-memory=17179869184", "--export=jps_answer"]
        call([*links, f"{room}/page.o", f"{room}/heap.o", BUILTINS, "-o", to])
        drop_table(to)
        return verdict

    def windows(self, to):
        """Windows on x86-64."""
        room = self.room
        words = [
            self.clang,
            "--target=x86_64-w64-windows-gnu",
            "-march=x86-64-v2",
            "-O3",
            "-Wno-override-module",
            "-c",
            "-x",
            "ir",
        ]
        call([*words, *self.flags("program"), f"{room}/program.bc", "-o", f"{room}/windows.o"])
        call([*words, f"{TOP}/edge/windows.ll", "-o", f"{room}/alloc.o"])
        turns = [f"--redefine-sym={it}=jps_{it}" for it in TURNED] + [
            "--redefine-sym=inline-asm=___chkstk_ms"
        ]
        call(["x86_64-w64-mingw32-objcopy", *turns, f"{room}/windows.o"])
        links = ["x86_64-w64-mingw32-gcc-win32", "-O2", "-Wall", "-Wextra", "-Werror", "-s", "-static"]
        links += ["-Wl,--no-insert-timestamp", "-Wl,--stack,8388608", "-o", to]
        call([*links, f"{room}/windows.o", f"{room}/alloc.o", f"{TOP}/edge/windows.c", "-lshell32"])


def write_script(folder):
    """jps.mjs, which knows the sum of the jps.wasm beside it."""
    with open(f"{TOP}/edge/jps.mjs", encoding="utf-8") as file:
        text = file.read()
    told = text.replace('const SUM = "";', f'const SUM = "{sum_of(f"{folder}/jps.wasm")}";')
    if told == text:
        sys.exit("elsewhere: edge/jps.mjs has no place for a sum")
    with open(f"{folder}/jps.mjs", "w", encoding="utf-8") as file:
        file.write(told)


def sum_of_others():
    """A sum over edge/ and the crate page_calls."""
    told = hashlib.sha256()
    with open(f"{TOP}/crates.txt", encoding="utf-8") as file:
        told.update("".join(it for it in file if it.startswith("page_calls ")).encode())
    for part in ("edge", *(f"crates/page_calls/{it}" for it in ("src", "specs", "proofs"))):
        for at, folders, names in os.walk(f"{TOP}/{part}"):
            folders.sort()
            for name in sorted(names):
                told.update(f"{at[len(TOP) :]}/{name} {sum_of(f'{at}/{name}')}\n".encode())
    return told.hexdigest()


def lines_of(folder, verdicts):
    """What the manifest tells of these files, of what was proved of them, and of the tools."""
    yield f"others {sum_of_others()}"
    for name, target in TARGETS.items():
        path = f"{folder}/{name}"
        yield f"file {name} {sum_of(path)} {os.path.getsize(path)} {target}"
    for name, verdict in verdicts.items():
        yield f"proved {name} {verdict}"
    for package in PACKAGES:
        version = call(["dpkg-query", "-f", "${Version}", "-W", package])
        yield f"tool {package} {version}"


def main():
    """Makes all of them."""
    if sys.argv[1:] == ["--sum"]:
        print(sum_of_others())
        return
    folder = os.path.abspath(sys.argv[1])
    for name in TARGETS:
        os.makedirs(os.path.dirname(f"{folder}/{name}"), exist_ok=True)
    with tempfile.TemporaryDirectory() as room, concurrent.futures.ThreadPoolExecutor(2) as lanes:
        maker = Maker(room)
        arm = lanes.submit(maker.arm, f"{folder}/aarch64-linux/jps")
        wasm = lanes.submit(maker.wasm, f"{folder}/wasm64/jps.wasm")
        maker.program()
        maker.static(f"{folder}/x86_64-linux-static/jps")
        maker.windows(f"{folder}/x86_64-windows/jps.exe")
        verdicts = {"aarch64-linux/jps": arm.result(), "wasm64/jps.wasm": wasm.result()}
    write_script(f"{folder}/wasm64")
    with open(f"{folder}/lines", "w", encoding="utf-8") as file:
        file.writelines(f"{it}\n" for it in lines_of(folder, verdicts))


if __name__ == "__main__":
    main()
