#!/usr/bin/env python3
"""In pieces: the proved programs answer alike whatever pieces their input comes in, and however slowly they are read.

    outside/pieces.py SEED REFERENCE all FOLDER          sends each program (evening, why, broadcast, listen, exchange,
                                                         night) a short input, cut at every byte and ended at every
                                                         byte; the evening and the messages that outside/compare left
                                                         in the folder, in random pieces, and to a reader that takes
                                                         few bytes at a time; lines, messages and texts of the greatest
                                                         lengths in pieces. The answers have to be the reference's
    outside/pieces.py SEED REFERENCE some FOLDER         the same without the short inputs, of which there are many
    outside/pieces.py SEED REFERENCE each NAME <INDEX    prints what the program answers to each file of the index, read
                                                         whole; in random pieces it has to be answered the same

Behind these words may stand a command that runs a program by its name, as one of a release does. Without it the
program is the one of target/bin.

No sleep is trusted: a piece is sent once the system says that nothing of the last one waits to be read, so that no
`read` of the program returns bytes of two pieces. Status 1 says that answers differ, and names the program, the seed
and the piece; status 2 that something could not be run.
"""
import array
import collections
import concurrent.futures
import fcntl
import os
import random
import re
import signal
import struct
import subprocess
import sys
import termios
import time
import zlib

PATIENCE = 60  # seconds without a byte of answer after which a program is stuck
PAGE = os.sysconf("SC_PAGE_SIZE")  # the least that a pipe holds
SET_PIPE_SIZE = 1031  # Linux's F_SETPIPE_SZ, which older versions of Python do not name
LONGEST = 65_535  # bytes of the longest line that may be a call (docs/EVENING.md)
TEXT_MOST = 65_536  # bytes of the longest text that `exchange` takes (docs/EXCHANGE.md)
NIGHT_MOST = 1_048_576  # bytes of the longest text that `night` takes
# What is asked of a program that takes words.
WORDS = {"exchange": ["7"], "night": "4 0 0 0 -1 1 1 0/1 2 0 0 8 7".split()}
# The programs that answer at the end, to all of their input.
AT_THE_END = ("exchange", "night")

# A program's name, the command that runs it, and the command that asks the reference the same.
Program = collections.namedtuple("Program", "name command reference")


class Wrong(Exception):
    """What a program does wrong."""


class Ended(Exception):
    """A program ends before its input does, as `listen` has to behind a refused message."""


NOT_WHOLE = b"listen: not one whole stream\n"  # what `listen --whole` says of any other input, on standard error


def answer_of(name, said, error, status):
    """What a program answers, or none where it fails. Of a bad text `night` says nothing but the line, on standard
    error. It may then end with status 1, and so may `listen` where it printed `refused`, or where it says that the
    input is not one whole stream, which is the end of its answer."""
    if name == "night" and status in (0, 1) and not said and re.fullmatch(rb"15 [0-9]+\n", error):
        return error
    if name == "listen" and error == NOT_WHOLE and status in (0, 1):
        return said + error
    if name == "listen" and status == 1 and any(line.startswith(b"refused ") for line in said.splitlines()):
        status = 0
    return None if error or status else said


# ---- a program that is fed and read by hand

def unread(pipe):
    """How many bytes of a pipe nobody has read yet."""
    number = array.array("i", [0])
    fcntl.ioctl(pipe, termios.FIONREAD, number)
    return number[0]


class Run:
    """One run. With `few`, which draws numbers, the answers go through a pipe of one page and are taken by few bytes,
    and the program is stopped and continued whenever that pipe is full, so that its `write` of more returns early."""

    def __init__(self, program, few=None):
        their_input, self.input = os.pipe()
        self.output, their_output = os.pipe()
        self.name = program.name
        self.few = few
        self.answered = bytearray()
        if few:
            fcntl.fcntl(self.output, SET_PIPE_SIZE, PAGE)
        os.set_blocking(self.input, False)
        os.set_blocking(self.output, False)
        self.process = subprocess.Popen(program.command, stdin=their_input, stdout=their_output, stderr=subprocess.PIPE)
        os.close(their_input)
        os.close(their_output)

    def take(self):
        """Takes some of what is answered, and says whether there was any. A program that ends closes its output."""
        if self.few and unread(self.output) == PAGE:
            self.interrupt()
        try:
            some = os.read(self.output, self.few.randrange(1, 8) if self.few else 16 * PAGE)
        except BlockingIOError:
            return False
        if not some:
            raise Ended
        self.answered += some
        return True

    def interrupt(self):
        self.process.send_signal(signal.SIGSTOP)
        if self.process.returncode is None:
            os.waitid(os.P_PID, self.process.pid, os.WSTOPPED | os.WEXITED | os.WNOWAIT)
            self.process.send_signal(signal.SIGCONT)

    def wait(self, until, what):
        """Takes answers until something holds."""
        late = time.monotonic() + PATIENCE
        while not until():
            if self.take():
                late = time.monotonic() + PATIENCE
            elif time.monotonic() < late:
                time.sleep(0.0001)
            else:
                raise Wrong("it does not " + what)

    def send(self, piece):
        """Sends a piece, until all of it is read."""
        def is_read():
            nonlocal piece
            try:
                piece = piece[os.write(self.input, piece):] if piece else piece
            except BlockingIOError:
                return False
            except BrokenPipeError:
                raise Ended from None
            return not piece and unread(self.input) == 0
        self.wait(is_read, "read what it is sent")

    def end(self):
        """Ends the input, and gives all that is answered."""
        os.close(self.input)
        self.input = None
        try:
            self.wait(lambda: False, "end where its input ends")
        except Ended:
            said, status = self.process.stderr.read(), self.process.wait()
        answer = answer_of(self.name, bytes(self.answered), said, status)
        if answer is None:
            raise Wrong("it ends with status %d and says %r" % (status, said))
        return answer

    def close(self):
        """Leaves nothing behind, also where the program is stuck."""
        self.process.kill()
        self.process.wait()
        self.process.stderr.close()
        os.close(self.output)
        if self.input is not None:
            os.close(self.input)


# ---- an input in pieces

def asked(name, command, **of):
    """What a command answers that is run by itself."""
    run = subprocess.run(command, stdout=subprocess.PIPE, stderr=subprocess.PIPE, **of)
    answer = answer_of(name, run.stdout, run.stderr, run.returncode)
    if answer is None:
        raise subprocess.CalledProcessError(run.returncode, command, run.stdout, run.stderr)
    return answer


def theirs(program, script):
    """What the reference answers."""
    return asked(program.name, program.reference, input=script)


def cut(script, places):
    """The pieces of an input between some places of it."""
    places = [0] + sorted(places) + [len(script)]
    return [script[start:end] for start, end in zip(places, places[1:]) if start < end]


def random_places(drawn, length, mean):
    """Places that are `mean` bytes apart: many of them a few bytes, some of them many lines."""
    places = []
    at = 0
    while at < length:
        places.append(at)
        at += 1 + int(mean * drawn.expovariate(1) ** 2 / 2)
    return places


def sent(program, how, pieces, expected, few=None, at_once=b""):
    """Sends an input in pieces, and holds the answers to what is expected. What is expected `at_once` has to be
    answered to the first piece before the second is sent."""
    run = Run(program, few)
    number = 0
    try:
        try:
            for number, piece in enumerate(pieces, 1):
                run.send(piece)
                if number == 1:
                    run.wait(lambda: len(run.answered) >= len(at_once), "answer %r at once" % at_once)
        except Ended:
            pass
        answered = run.end()
        if answered != expected:
            same = len(os.path.commonprefix([answered, expected]))
            number = at_fault(program, pieces[:number], same)
            raise Wrong("behind byte %d of the answers stands %r, not %r" % (
                same, answered[same:same + 60], expected[same:same + 60]))
    except Wrong as wrong:
        ends = sum(map(len, pieces[:number]))
        raise Wrong("%s, %s, piece %d of %d, up to byte %d: %s" % (program.name, how, number, len(pieces), ends, wrong))
    finally:
        run.close()


def at_fault(program, pieces, same):
    """Of the pieces that were sent, the first that makes whole what is not answered the same; else the last."""
    for number in range(1, len(pieces)):
        if len(whole_in(program, b"".join(pieces[:number]))) > same:
            return number
    return len(pieces)


def whole_in(program, first):
    """What is answered to the first bytes of an input before more of it is there: all that is whole in them. A text
    of the exchange has one answer, to all of it."""
    if program.name in AT_THE_END:
        return b""
    if program.name == "listen":
        # That a message is cut short, or a stream has no end, is known at the end alone.
        return re.split(rb"^(?:refused|unended) ", theirs(program, first), flags=re.MULTILINE)[0]
    answers = theirs(program, first[:first.rfind(b"\n") + 1])
    return answers[:-END_BYTES] if program.name == "broadcast" else answers


# ---- what is sent

LINES = b"admit 7 3 400 600 8 9 1 1 123 4 5 6 1 2 3 4 1 2 3 4 56 7 8 9 5 6 0 1 2 1 3 0\n #read 7\nhello\n#\nread 7\n"
MOVE = struct.pack("<IH3i6q", 62, 4, 7, 0, 1, 1133000, 1174200, 1205100, 1091800, 1091801, 1091802)
UNKNOWN = struct.pack("<IH3s", 5, 9, b"abc")
BEGIN = struct.pack("<IHi", 6, 6, 1)
END_BYTES = 18  # of an `end`, which `broadcast` writes where its input has ended
WHOLE = BEGIN + UNKNOWN + MOVE + struct.pack("<IHqI", 14, 7, 3, zlib.crc32(BEGIN + UNKNOWN + MOVE))
ROW = b"7;0;1;0;103;;;5\n"
SHORT = {
    "evening": LINES,
    "why": LINES,
    "broadcast": LINES,
    "listen": UNKNOWN + WHOLE + BEGIN + MOVE,
    "exchange": ROW + b"9;1;2.5;0;;1;2;0\r\n007;1;1;-7.3;4;2;3;9\n",
    "night": ROW + b"9;1;2.5;0;;1;2;0\r\n007;1;1;-7.3;4;2;3;9\n",
}


def every_boundary(program):
    script = SHORT[program.name]
    expected = theirs(program, script)
    for place in range(1, len(script)):
        first, rest = cut(script, [place])
        yield program, "a short input cut at byte %d" % place, [first, rest], expected, None, whole_in(program, first)
    for place in range(len(script)):
        first = script[:place]
        yield program, "a short input ended at byte %d" % place, cut(first, []), theirs(program, first)


def random_pieces(program, script, drawn):
    """Small pieces of the beginning, large ones of all, and a reader that takes few bytes."""
    first = script[:200_000]
    expected = theirs(program, first)
    yield program, "in small pieces", cut(first, random_places(drawn, len(first), 150)), expected
    yield program, "in large pieces", cut(script, random_places(drawn, len(script), 6_000)), theirs(program, script)
    yield program, "read by few bytes", [first], expected, random.Random(drawn.random())


def long_inputs(name):
    """Inputs with a line, messages or a text of the greatest length, of a byte less or more, and far longer ones: with
    their ends, without, and with what is served behind them. Each with places to cut it at."""
    if name == "listen":
        unknown = struct.pack("<IH", 4096, 9).ljust(4100, b"x") * 20
        return [(unknown + MOVE, [len(unknown)]), (unknown, [5]), (unknown[:-1], [4100])]
    if name == "exchange":
        texts = [ROW.rjust(TEXT_MOST + more, b"0") for more in (-1, 0, 1, TEXT_MOST)]
        texts += [texts[1][:-1], (b"9" + ROW[1:]) * (TEXT_MOST // len(ROW) - 1) + ROW]
        return [(text, [len(text) - 1]) for text in texts]
    if name == "night":
        rows = b"".join(b"%d" % (1 + number % 512) + ROW[1:] for number in range(512 * 16))
        texts = [ROW.rjust(NIGHT_MOST + more, b"0") for more in (-1, 0, 1, NIGHT_MOST)]
        texts += [texts[1][:-1], rows, rows + ROW, rows.rjust(NIGHT_MOST, b"0")]
        return [(text, [len(text) - 1]) for text in texts]
    inputs = []
    for length in LONGEST, LONGEST + 1, LONGEST + 2, 2 * LONGEST + 1, 3 * LONGEST:
        for start in b"read 7", b"#":
            line = LINES + start.ljust(length)
            inputs += [(line + behind, [len(line), len(line) + 1]) for behind in (b"", b"\n", b"\nhello\n\nread 7")]
    return inputs


def long_pieces(program, drawn):
    for script, places in long_inputs(program.name):
        pieces = cut(script, places + random_places(drawn, len(script), 9_000))
        yield program, "a long input of %d bytes" % len(script), pieces, theirs(program, script)


# ---- the work

def programs(reference, names, command):
    for name in names:
        words = command + [name]
        if not command:
            runner = ["outside/runner", "--show", "target/bin/" + name]
            words = subprocess.run(runner, stdout=subprocess.PIPE, check=True).stdout.decode().split()
        yield Program(name, words, [reference, name])


def asking(program, words):
    return Program(program.name, program.command + words, program.reference + words)


def send_all(pool, seed, reference, folder, command, with_short):
    def inputs():
        for program in programs(reference, SHORT, command):
            drawn = random.Random("%s %s" % (seed, program.name))
            program = asking(program, WORDS.get(program.name, []))
            if program.name in AT_THE_END:
                few = random.Random(drawn.random())
                yield program, "read by few bytes", [ROW * 16], theirs(program, ROW * 16), few
            else:
                file = "broadcast.ours" if program.name == "listen" else "evening.script"
                with open(os.path.join(folder, file), "rb") as script:
                    yield from random_pieces(program, script.read(), drawn)
            yield from long_pieces(program, drawn)
            if with_short:
                yield from every_boundary(program)
    done = list(pool.map(lambda words: sent(*words), inputs()))
    print("pieces: %d inputs in pieces to %s, no difference" % (len(done), " ".join(command) or "target/bin"))


def send_each(pool, seed, reference, name, command):
    program = next(programs(reference, [name], command))

    def both(line):
        *words, file = line.split()
        of_words = asking(program, words)
        with open(file, "rb") as script:
            whole = asked(name, of_words.command, stdin=script)
            script.seek(0)
            text = script.read()
        drawn = random.Random("%s %s" % (seed, line))
        places = [drawn.randrange(len(text) + 1) for _ in range(drawn.randrange(1, 6))]
        sent(of_words, line, cut(text, places), whole)
        return whole
    index = sys.stdin.read().splitlines()
    for line, answers in zip(index, pool.map(both, index)):
        # Where an answer may have many lines they stand behind that of the index, as the other readers print them.
        is_headed = name in ("listen", "night")
        sys.stdout.buffer.write((line.encode() + b"\n" if is_headed else b"") + answers)


def main(words):
    if words in (["-h"], ["--help"]):
        print(__doc__.strip())
        return 0
    if len(words) < 4 or words[2] not in ("all", "some", "each"):
        print("pieces: which seed, which reference, and all, some or each of what? see pieces.py -h", file=sys.stderr)
        return 2
    seed, reference, what, which, *command = words
    pool = concurrent.futures.ThreadPoolExecutor(os.cpu_count())
    try:
        if what == "each":
            send_each(pool, seed, reference, which, command)
        else:
            send_all(pool, seed, reference, which, command, what == "all")
    except Wrong as wrong:
        print("pieces: seed %s: %s" % (seed, wrong), file=sys.stderr)
        return 1
    except (OSError, subprocess.SubprocessError) as error:
        print("pieces: %s" % error, file=sys.stderr)
        return 2
    finally:
        pool.shutdown(cancel_futures=True)
    return 0


if __name__ == "__main__":
    sys.exit(main(sys.argv[1:]))
