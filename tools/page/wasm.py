"""The WebAssembly module of the program's LLVM module, by the kit's own clang, with shim.c in place of the C library.

What stands here, in lower.py and in shim.c is in the page's sums: where it changes, the page is made anew.
"""
import os, re, shutil, subprocess, sys

HERE = os.path.dirname(os.path.realpath(__file__))
sys.path.insert(0, HERE)
sys.dont_write_bytecode = True
import lower

WASM = "wasm64-unknown-unknown"
LAYOUT = "e-m:e-p:64:64-p10:8:8-p20:8:8-i64:64-i128:128-n32:64-S128"
SAID_OF_X86 = re.compile(r' "(probe-stack|stack-probe-size|target-cpu|target-features|frame-pointer)"="[^"]*"')
CLANG = ["--target=" + WASM, "-mcpu=lime1", "-O2"]
PAUSE = "@llvm.x86.sse2.pause()"
# what the program's stack may take, below its data, so that what goes over it ends the instance
STACK = 1 << 20
LINK = ["-mwasm64", "--no-entry", "--export=main", "--gc-sections", "--stack-first", "-z", f"stack-size={STACK}"]


class NotMade(Exception):
    """Why there is no WebAssembly module."""


def for_wasm(text):
    """The lines of a module for x86-64 as those of one for WebAssembly: all but its target and what is said of x86-64
    and of AddressSanitizer stay."""
    for line in text:
        if line.startswith("target datalayout = "):
            line = f'target datalayout = "{LAYOUT}"\n'
        elif line.startswith("target triple = "):
            line = f'target triple = "{WASM}"\n'
        elif line.startswith("attributes #"):
            line = SAID_OF_X86.sub("", line).replace(" sanitize_address", "")
            line = line.replace("{ }", "{ nounwind }")  # a group has at least one, and nothing here unwinds
        elif PAUSE in line:
            continue  # a hint to the processor while another thread is waited for, of which a page has none
        yield line


def wasm_of(module, clang, room):
    """The WebAssembly module of an LLVM module, made in a folder by this clang, which is a linker too."""
    linker = room + "/wasm-ld"
    if not os.path.exists(linker):
        os.symlink(clang, linker)  # it goes by its name
    do = lambda *words: subprocess.run(words, check=True, cwd=room, stdin=subprocess.DEVNULL)
    as_text = ["--target=x86_64-unknown-linux-gnu", "-S", "-emit-llvm", "-O0", "-x", "ir"]
    try:
        do(clang, *as_text, module, "-o", "module.ll")
        with open(room + "/module.ll", encoding="utf-8") as text, open(room + "/wasm.ll", "w", encoding="utf-8") as out:
            out.writelines(for_wasm(text))
        do(clang, *CLANG, "-c", "-x", "ir", "wasm.ll", "-o", "wasm.o")
        flags = ["-ffreestanding", "-fno-builtin", "-nostdlib", "-Wall", "-c"]
        shutil.copy(HERE + "/shim.c", room + "/shim.c")
        do(clang, *CLANG, *flags, "shim.c", "-o", "shim.o")
        most = f"--max-memory={lower.MOST_PAGES << 16}"
        do(linker, *LINK, most, "-O2", "-s", "wasm.o", "shim.o", "-o", "program.wasm")
        with open(room + "/program.wasm", "rb") as wasm:
            return lower.lowered(wasm.read())
    except (subprocess.CalledProcessError, lower.Unknown) as error:
        raise NotMade(str(error)) from error
