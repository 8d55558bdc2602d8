#!/usr/bin/env python3
"""one.py PAGE FILE: the module of a page as one file of C, with what wasm2c needs and the host of host.c behind it.

Compiled as it is, FILE is a library with the calls of idc.h; with -DIDC_COMMAND it is the program as a command. wasm2c
is wabt's, of the version whose names host.c has (1.0.32), and its runtime is taken from where it is installed.
"""
import base64, gzip, json, os, re, shutil, subprocess, sys, tempfile

HERE = os.path.dirname(os.path.realpath(__file__))
RUNTIMES = ["/usr/share/wabt/wasm2c", "/usr/local/share/wabt/wasm2c", "/usr/src/wasm2c"]
OF = re.compile(r'<script id="of" type="application/json">(.*?)</script>')
WASM = re.compile(r'<script id="wasm" type="text/plain">([A-Za-z0-9+/=]*)</script>')
# its own checks of places, so that a library takes no signals; no count of calls, since the program's depth is bounded
SETTINGS = """#ifndef IDC_COMMAND
#define WASM_RT_MEMCHECK_SIGNAL_HANDLER 0
#endif
#define WASM_RT_USE_STACK_DEPTH_COUNT 0
#define WASM_RT_TRAP_HANDLER trapped
"""


class NotMade(Exception):
    """Why there is no C of the module."""


def text_of(path):
    with open(path, encoding="utf-8") as file:
        return file.read()


def of_page(page):
    """What a page says of its module, and the module."""
    text = text_of(page)
    of, packed = OF.search(text), WASM.search(text)
    if not of or not packed:
        raise NotMade(f"{page} is no page with a module")
    return json.loads(of[1]), gzip.decompress(base64.b64decode(packed[1]))


def told(of):
    """What a module is made of, in words."""
    program = "the proved program" if of["proved"] else "a program without proofs, with checks at run time"
    sources = f"of the sources at commit {of['commit']} (sum {of['code']})"
    return f"the module of {program}, {sources}, by {of['kit'].strip()}"


def runtime():
    """The texts of wasm2c's runtime: its header, the header of its body, and that."""
    headers = ["/usr/include", "/usr/local/include", *RUNTIMES]
    for at in RUNTIMES:
        header = next((it for it in headers if os.path.exists(it + "/wasm-rt.h")), None)
        if header and os.path.exists(at + "/wasm-rt-impl.c"):
            return [text_of(header + "/wasm-rt.h"), text_of(at + "/wasm-rt-impl.h"), text_of(at + "/wasm-rt-impl.c")]
    raise NotMade("wasm2c's runtime, wasm-rt-impl.c, is not here")


def c_of(wasm, of, room):
    """The text of one file of C."""
    if not shutil.which("wasm2c"):
        raise NotMade("there is no wasm2c here; it comes with wabt")
    with open(room + "/idc.wasm", "wb") as file:
        file.write(wasm)
    words = ["wasm2c", "-n", "idc", "-o", "module.c", "idc.wasm"]
    done = subprocess.run(words, cwd=room, capture_output=True, text=True)
    if done.returncode:
        raise NotMade("wasm2c: " + done.stderr[-500:])
    header = text_of(room + "/module.h")
    if "Z_idc_instance_t" not in header:
        raise NotMade("this wasm2c gives other names than that of wabt 1.0.32")
    first, second, body = runtime()
    parts = [first, "static void trapped(wasm_rt_trap_t);\n", header, second, body, text_of(room + "/module.c")]
    parts.append(text_of(HERE + "/host.c"))
    # each part stands above those that bring it in
    inside = re.compile(r'(?m)^#include "(?:wasm-rt|wasm-rt-impl|module)\.h"\n')
    head = f"/* {told(of)}; its C by wasm2c. */\n#define IDC_OF {json.dumps(told(of))}\n{SETTINGS}"
    return "#define _GNU_SOURCE\n" + head + "".join(inside.sub("", part) for part in parts)


def main(words):
    if len(words) != 2:
        sys.exit(__doc__)
    try:
        of, wasm = of_page(words[0])
        with tempfile.TemporaryDirectory(prefix="one-") as room:
            made = c_of(wasm, of, room)
    except NotMade as error:
        sys.exit(f"one.py: {error}")
    with open(words[1], "w", encoding="utf-8") as file:
        file.write(made)


if __name__ == "__main__":
    main(sys.argv[1:])
