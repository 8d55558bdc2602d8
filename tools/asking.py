"""What idc prints, asked of it by a tool. IDC has the words of another command than tools/program names.

Where that takes long, a tool says so each few seconds on standard error, where that is a terminal, unless IDC_QUIET is
set.
"""
import atexit, os, shlex, signal, stat, subprocess, sys, tempfile, time

HERE = os.path.dirname(os.path.realpath(__file__))
FIRST, NEXT = 5, 15  # seconds until a tool says that it still works, and between two such lines
_words = []
# Control-C ends a tool, as it ends other filters, and a full pipe does
signal.signal(signal.SIGINT, signal.SIG_DFL)


class Progress:
    """Says how far a tool is, each few seconds, from the fifth one on."""

    def __init__(self, name):
        self.name, self.due = name, time.monotonic() + FIRST

    def say(self, text):
        if time.monotonic() >= self.due:
            self.due = time.monotonic() + NEXT
            if sys.stderr.isatty() and os.environ.get("IDC_QUIET", "") in ("", "0"):
                print(f"{self.name}: {text}", file=sys.stderr, flush=True)


def kept(path):
    """A path at which a text can be read several times: of a pipe, which /dev/stdin may be, that of a copy."""
    try:
        if not stat.S_ISFIFO(os.stat(path).st_mode):
            return path
        with open(path, "rb") as file, tempfile.NamedTemporaryFile(suffix=".id", delete=False) as copy:
            atexit.register(os.remove, copy.name)
            copy.write(file.read())
            return copy.name
    except OSError:
        return path  # the program refuses it


def program():
    """The words of the command that runs idc."""
    if not _words:
        if os.environ.get("IDC"):
            _words.extend(shlex.split(os.environ["IDC"]))
        else:
            done = subprocess.run([os.path.join(HERE, "program")], stdout=subprocess.PIPE, text=True)
            if done.returncode:
                sys.exit(done.returncode)
            _words.extend(done.stdout.split("\n")[:-1])
    return _words


def outcome(*words):
    """The status and the bytes of both streams."""
    start, tool = time.monotonic(), Progress(os.path.basename(sys.argv[0]) or "idc")
    pipe = subprocess.PIPE
    try:
        it = subprocess.Popen([*program(), *words], stdin=subprocess.DEVNULL, stdout=pipe, stderr=pipe)
    except (OSError, ValueError) as error:
        sys.exit(f"{tool.name}: the program can't be started: {error}")
    while True:
        try:
            out, err = it.communicate(timeout=FIRST)
            return it.returncode, out, err
        except subprocess.TimeoutExpired:
            tool.say(f"`idc {words[0]}` still runs, for {time.monotonic() - start:.0f} s")


def ask(*words):
    """The status and the lines of standard output. Where idc says something on standard error, that is the end."""
    status, out, err = outcome(*words)
    if err:
        sys.stderr.write(err.decode(errors="replace"))
        sys.exit(status)
    return status, out.decode(errors="replace").split("\n")[:-1]


def build():
    """Which build the program is that tools/program names; nothing where IDC has another command."""
    if os.environ.get("IDC"):
        return None
    done = subprocess.run([os.path.join(HERE, "program"), "--build"], stdout=subprocess.PIPE, text=True)
    return done.stdout.strip() or None
