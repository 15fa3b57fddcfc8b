"""Runs the program on a stream, sent in several ways, for comparison with the model."""

import contextlib
import random
import subprocess
import threading

from checks import model

# Seconds after which a program that doesn't answer is killed.
PATIENCE = 120
# The prefix of an entry that describes the end of the program. No reply begins like this: its
# length would be too large.
ENDED = b"it ended with status"


def shown(reply):
    """Returns a frame in hex, or the description of an end."""
    if reply is None:
        return "nothing"
    return reply.decode() if reply.startswith(ENDED) else reply.hex(" ")


def words_for(limits):
    """Returns the command line arguments for limits other than the default."""
    names = [name for name in ("quota", "work")
             if getattr(limits, name) != getattr(model.LIMITS, name)]
    return [word for name in names for word in (f"--{name}", str(getattr(limits, name)))]


@contextlib.contextmanager
def running(command):
    """Yields a process of the program. It is killed if it doesn't end by itself."""
    pipes = dict.fromkeys(("stdin", "stdout", "stderr"), subprocess.PIPE)
    process = subprocess.Popen(command, bufsize=0, **pipes)
    watch = threading.Timer(PATIENCE, process.kill)
    watch.start()
    try:
        with process:
            yield process
    finally:
        watch.cancel()


def write(process, data):
    """Writes all data, unless the program has ended, which its replies then show."""
    with contextlib.suppress(BrokenPipeError):
        left = memoryview(data)
        while left:
            left = left[process.stdin.write(left) :]


def read(process, count):
    """Reads this many bytes of the program's output, or fewer at its end."""
    got = bytearray()
    while len(got) < count:
        part = process.stdout.read(count - len(got))
        if not part:
            break
        got += part
    return bytes(got)


def read_reply(process):
    head = read(process, 4)
    return head + read(process, int.from_bytes(head, "big")) if len(head) == 4 else head


def at_once(command, stream, _):
    with running(command) as process:
        output, line = process.communicate(b"".join(stream))
    return output + ended(process.returncode, line)


def in_lock_step(command, stream, _):
    with running(command) as process:
        output = []
        for frame in stream:
            write(process, frame)
            output.append(read_reply(process))
        process.stdin.close()
        rest, line = process.stdout.read(), process.stderr.read()
    return b"".join(output) + rest + ended(process.returncode, line)


def in_pieces(command, stream, seed):
    with running(command) as process:
        writer = threading.Thread(target=write_pieces,
                                  args=(process, b"".join(stream), random.Random(seed)))
        writer.start()
        output, line = process.stdout.read(), process.stderr.read()
        writer.join()
    return output + ended(process.returncode, line)


def write_pieces(process, data, rng):
    """Cuts data into pieces of mostly a few bytes, with a limit on their number."""
    at = 0
    while at < len(data):
        most = max(rng.choice((1, 7, 30, 300, 5000)), len(data) // 200)
        size = rng.randint(1, most)
        write(process, data[at : at + size])
        at += size
    process.stdin.close()


def ended(status, line):
    """Returns an entry after the replies if the program ended otherwise than at the end of a
    stream."""
    return b"" if (status, line) == (0, b"") else f"{ENDED.decode()} {status}, {line!r}".encode()


# The last way is a stream without the frames of the other clients.
AT_ONCE, ALONE = "at once", "a client alone"
WAYS = {AT_ONCE: at_once, "in lock step": in_lock_step, "in pieces": in_pieces, ALONE: at_once}


def split(output):
    """Returns the reply frames of an output; an incomplete frame at the end is the last one."""
    replies, at = [], 0
    while at < len(output):
        length = 4 + int.from_bytes(output[at : at + 4], "big")
        replies.append(output[at : at + length])
        at += length
    return replies


def first_difference(output, replies):
    """Returns the index of the first reply that differs from the model's, with the program's reply,
    or None."""
    if output == b"".join(replies):
        return None
    got = split(output)
    at = next((k for k, (one, other) in enumerate(zip(got, replies)) if one != other),
              min(len(got), len(replies)))
    return at, got[at] if at < len(got) else None


def model_replies(stream, limits):
    clients = model.Clients(limits)
    return [clients.reply(frame) for frame in stream]
