#!/usr/bin/env python3
"""call.py PROGRAM FILE [NAME=VALUE ..]: runs a text of Id by idc, and prints its answer."""
import os, subprocess, sys


def answer_of(program, file, *inputs, seconds=60):
    """The answer of a text on these inputs: a number, True, False, the name of an array, or None."""
    words, quiet = [program, "run", file, *inputs], {**os.environ, "IDC_QUIET": "1"}
    done = subprocess.run(words, env=quiet, capture_output=True, text=True, timeout=seconds)
    if done.returncode != 0:
        # 1 a fault, on standard output; 2 a refusal, on standard error; 3 stopped at the limit of messages
        first = (done.stdout or done.stderr).split("\n")[0]
        raise RuntimeError(f"status {done.returncode}: {first}")
    word = done.stdout.split("\n")[0].split(" ")[1]  # the first line is `answer V`
    named = {"none": None, "true": True, "false": False}
    return named[word] if word in named else word if "@" in word else int(word)


if __name__ == "__main__":
    try:
        print(str(answer_of(*sys.argv[1:])).lower())
    except RuntimeError as error:
        print(error)
