"""try.py PACKAGE CALLS ANSWERS: makes each call of a file by idc.py (.ci/packages has the format)."""
import sys

sys.dont_write_bytecode = True
sys.path.insert(0, sys.argv[1])
import idc

with open(sys.argv[2], "rb") as file:
    left = file.read()


def take():
    """The next part of the file."""
    global left
    length, _, rest = left.partition(b":")
    found, left = rest[: int(length)], rest[int(length) + 1 :]
    return found


with open(sys.argv[3], "wb") as file:
    while left:
        words = [take() for _ in range(int(take()))]
        files = {take(): take() for _ in range(int(take()))}
        for it in map(str, idc.call(words, files)):
            file.write(b"%d:%s," % (len(it.encode()), it.encode()))
