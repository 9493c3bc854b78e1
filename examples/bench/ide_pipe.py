"""A session over the program itself, with no library: `ide run TOPOLOGY /dev/stdin`, one line in, one verdict out."""
import subprocess
import sys


class Pipe:
    def __init__(self, ide, topology):
        """The program, and the path of a topology."""
        words = [ide, "run", topology, "/dev/stdin"]
        self._run = subprocess.Popen(words, stdin=subprocess.PIPE, stdout=subprocess.PIPE)

    def step(self, line):
        """The verdict line of the next line of a script, which is given without its line feed. A comment and an empty
        line are answered by nothing, so none is read. If the program ends, as at a line that is not spelled, EOFError
        has its last line and its status."""
        if b"\n" in line:
            raise ValueError("this is no line")
        try:
            self._run.stdin.write(line + b"\n")
            self._run.stdin.flush()
        except BrokenPipeError:
            pass  # it has ended, and its last line says why
        if len(line) <= 20000 and (not line.strip(b" ") or line.startswith(b"#")):
            return b""
        text = self._run.stdout.readline()
        if not text or text.startswith((b"refused ", b"topology ")):
            rest, status = self.close()
            raise EOFError(text + rest, status)
        return text

    def close(self):
        """The line of the totals, and the status of the program."""
        try:
            self._run.stdin.close()
        except BrokenPipeError:
            pass
        return self._run.stdout.read(), self._run.wait()


if __name__ == "__main__":
    program, topology, script = sys.argv[1:]
    pipe = Pipe(program, topology)
    try:
        with open(script, "rb") as file:
            for line in file:
                sys.stdout.buffer.write(pipe.step(line.removesuffix(b"\n")))
        text, status = pipe.close()
    except EOFError as end:
        text, status = end.args
    sys.stdout.buffer.write(text)
    sys.exit(status)
