"""The calls of the built `contour`. Texts go through files; nothing of unknown size is kept in memory."""
import os
import subprocess
import tempfile

from .errors import NotRight, WrongInput

TINY_BOARD = b"board 1 t 9 9\nlayer l\nclass c\nrule l c 1 1\nend\n"


def find_program(given=None):
    """The path of the program: the option, else the environment's CONTOUR, else the repository's launcher."""
    top = os.path.dirname(os.path.dirname(os.path.dirname(os.path.dirname(os.path.abspath(__file__)))))
    path = given or os.environ.get("CONTOUR")
    if not path:
        path = os.path.join(top, "contour")
        if not os.path.exists(os.path.join(top, "crates", "contour", "out", "contour")):
            raise WrongInput("contour is not built: run ./contour once in the repository, or give --contour PATH")
    if not os.path.isfile(path) or not os.access(path, os.X_OK):
        raise WrongInput(f"{path}: there is no program contour; give --contour PATH")
    try:
        done = subprocess.run([path, "upgrade"], input=TINY_BOARD, capture_output=True, timeout=60, check=False)
    except (OSError, subprocess.TimeoutExpired) as error:
        raise WrongInput(f"{path}: cannot be run: {error}") from None
    if done.returncode != 0 or not done.stdout.startswith(b"board 2 t 9 9\n"):
        raise WrongInput(f"{path}: is no program contour that reads board texts of version 2")
    return path


class Program:
    """A built `contour`, and a folder for the texts that it reads and writes."""

    def __init__(self, path):
        self.path = path
        self.folder = tempfile.TemporaryDirectory(prefix="contour-kicad-")
        self.running = None

    def __enter__(self):
        return self

    def __exit__(self, *_):
        if self.running is not None and self.running.poll() is None:
            self.running.kill()
            self.running.wait()
        self.folder.cleanup()

    def file(self, name):
        """The path of a file in the folder."""
        return os.path.join(self.folder.name, name)

    def write(self, name, text):
        """Writes a text into the folder and gives its path."""
        with open(self.file(name), "wb") as out:
            out.write(text)
        return self.file(name)

    @staticmethod
    def rename(old, new):
        """Gives a file of the folder another name; what had that name before is gone."""
        os.replace(old, new)

    def lines(self, words, source, copy):
        """The lines that a call writes, one at a time, each also added to the file `copy`."""
        with open(source, "rb") as given, open(copy, "wb") as kept, open(self.file("error"), "w+b") as said:
            self.running = subprocess.Popen([self.path, *words], stdin=given, stdout=subprocess.PIPE, stderr=said)
            for line in self.running.stdout:
                kept.write(line)
                yield line
            status = self.running.wait()
            self.running = None
            said.seek(0)
            told = said.read(500).decode("ascii", "replace").strip()
        if status:
            raise NotRight(f"contour {' '.join(words)} ended with status {status}: {told}")

    def to_file(self, words, source, target):
        """Makes a call from a file to a file; gives its status and what it said on standard error."""
        with open(source, "rb") as given, open(target, "wb") as out, open(self.file("error"), "w+b") as said:
            self.running = subprocess.Popen([self.path, *words], stdin=given, stdout=out, stderr=said)
            status = self.running.wait()
            self.running = None
            said.seek(0)
            return status, said.read(500).decode("ascii", "replace").strip()

    def check(self, board, replies):
        """Ends with an error unless `contour check` says that the replies are right."""
        whole = self.file("whole")
        with open(whole, "wb") as out:
            for path, end in ((board, b"replies\n"), (replies, b"")):
                with open(path, "rb") as part:
                    while block := part.read(1 << 20):
                        out.write(block)
                out.write(end)
        status, told = self.to_file(["check"], whole, self.file("verdict"))
        with open(self.file("verdict"), "rb") as verdict:
            answer = verdict.read(100).decode("ascii", "replace").strip()
        os.remove(whole)
        if status or not answer.startswith("right "):
            raise NotRight(f"contour check does not call the replies right (status {status}): {told or answer}")

    def has_finish(self):
        """Whether the program has the word `finish`."""
        path = self.write("tiny", TINY_BOARD + b"all\n")
        status, _ = self.to_file(["finish", "1"], path, self.file("tiny.out"))
        return status == 0
