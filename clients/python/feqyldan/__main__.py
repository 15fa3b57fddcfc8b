"""
The command line: runs the graph of a file on pictures, draws it, and edits it in the browser.

    python3 -m feqyldan run station.json --in 'parts/*.png' --out marks/ --csv found.csv
    python3 -m feqyldan draw station.json > station.svg
    python3 -m feqyldan studio station.json 'parts/*.png'
"""

from __future__ import annotations

import argparse
import contextlib
import glob
import io
import os
import re
import signal
import sys
import threading
import time
from collections import deque
from contextlib import ExitStack
from typing import Any, Callable, Deque, Iterable, Iterator, List, Optional, Sequence, Tuple

from . import __version__
from .errors import FeqyldanError, Refused
from .files import load
from .graph_files import Reader, drawing_of_file, input_of, told_by
from .images import AnyImage
from .reports import STANDARD_OUTPUT_NAME, Report, files_read, standard_output, writing_to
from .samples import samples_of
from .server import Server
from .sockets import connect
from .storage import cause_of, natural

DESCRIPTION = "Runs a graph file, as Graph.save() writes it, on pictures, draws it, or edits it."
# The errors that are written to standard error, and the exit status if pictures were skipped.
FAULTS = FeqyldanError, OSError, ValueError, ImportError
SKIPPED = 3
# The ends of the names of picture files.
PICTURES = ".pgm", ".png", ".jpg", ".jpeg", ".bmp", ".tif", ".tiff", ".webp", ".npy"
# The characters that control a terminal, but for the end of a line.
CONTROLS = re.compile("[\0-\x09\x0b-\x1f\x7f-\x9f]")
# The graph file of the studio if none is named.
STATION = "station.json"


def arguments(words: Optional[Sequence[str]]) -> argparse.Namespace:
    parser = argparse.ArgumentParser(prog="python3 -m feqyldan", description=DESCRIPTION)
    parser.add_argument("--version", action="version", version=f"feqyldan {__version__}")
    commands = parser.add_subparsers(dest="command", required=True)
    run = commands.add_parser("run", help="run a graph on pictures", description=(
        "Writes each picture to the graph's input, runs the graph and saves its results. Images go "
        "to a folder. Numbers go to a CSV file with one line per picture: extremes, histogram "
        "counts, and the number of nonzero samples of each image. Without --out and --csv the "
        "lines go to standard output. The exit status is 0 if all pictures ran, 3 if some were "
        "skipped, 1 after an error, and 2 if the words of the command are wrong."))
    run.add_argument("graph", help="JSON file of the graph")
    run.add_argument("--in", dest="pictures", required=True, nargs="+", action="extend",
                     metavar="PATTERN",
                     help="picture files, or quoted patterns such as 'parts/*.png'; files that "
                     "match a pattern run in natural order, part2 before part10 (the order matters "
                     "to a graph with a delay)")
    run.add_argument("--out", metavar="FOLDER", help="folder for images, created if it doesn't "
                     "exist (default: no images are saved); files are named after the pictures, as "
                     "PNG, or as NumPy .npy for U32 images and negative samples")
    run.add_argument("--csv", metavar="FILE", help="file for numbers, or - for standard output; "
                     "its folder is created if it doesn't exist, and an older file stays until "
                     "there is a result, or all pictures were skipped (default: standard output "
                     "without --out, otherwise none)")
    run.add_argument("--regions", type=least_from, metavar="LEAST", help="add a column with the "
                     "number of regions of at least LEAST nonzero samples of each image; needs "
                     "OpenCV or SciPy (default: no such column)")
    run.add_argument("--skip", action="store_true", help="name pictures that can't be read, or "
                     "have another size or format than the input, on standard error, and run the "
                     "rest (default: the first of them ends the run)")
    run.add_argument("--socket", metavar="PATH", help="Unix socket of a broker or door (default: "
                     "start a server)")
    run.add_argument("--quiet", action="store_true",
                     help="show no progress (default: shown on a terminal)")
    draw = commands.add_parser("draw", help="draw a graph as SVG", description=(
        "Writes the graph as SVG to standard output. Uses Graphviz if it is installed."))
    draw.add_argument("graph", help="JSON file of the graph")
    draw.add_argument("--dot", action="store_true",
                      help="write Graphviz DOT (default: SVG)")
    studio = commands.add_parser("studio", help="edit a graph in the browser", description=(
        "Opens a page in the browser, at 127.0.0.1, that shows the image at each node of a graph, "
        "and edits the graph's file."))
    studio.add_argument("graph", nargs="?", metavar="GRAPH.json", default=STATION,
                        help="JSON file of the graph, which needn't exist yet (default: "
                        f"{STATION})")
    studio.add_argument("pictures", nargs="*", metavar="PICTURES",
                        help="picture files, folders, or quoted patterns such as 'parts/*.png'")
    studio.add_argument("--port", type=port_from, default=0,
                        help="port at 127.0.0.1 (default: any free one)")
    studio.add_argument("--no-browser", action="store_true", help="only print the page's address")
    told = parser.parse_args(words)
    if told.command == "run" and told.regions is not None and told.csv is None and told.out:
        run.error("--regions adds a column of numbers, which --out alone doesn't save: give --csv")
    return told


def port_from(text: str) -> int:
    """Returns a port, for argparse."""
    if not text.isdecimal() or int(text) > 65535:
        raise argparse.ArgumentTypeError(f"a port must be from 0 to 65535, not {text}")
    return int(text)


def least_from(text: str) -> int:
    """Returns the least number of samples of a region, for argparse."""
    if not text.isdecimal() or int(text) < 1:
        raise argparse.ArgumentTypeError(f"it must be a whole number of at least 1, not {text}")
    return int(text)


def main(words: Optional[Sequence[str]] = None) -> int:
    try:
        told = written_arguments(words)
        status: int = {"draw": draw, "run": run, "studio": studio}[told.command](told)
        if sys.stdout is not None:
            sys.stdout.flush()
        return status
    except KeyboardInterrupt:
        return 130
    except BrokenPipeError as error:
        # A reader of standard output that has ended needs no words.
        if error.filename in (None, STANDARD_OUTPUT_NAME):
            drop_output()
        else:
            say(str(error))
        return 1
    except FAULTS as error:
        if isinstance(error, OSError) and error.filename == STANDARD_OUTPUT_NAME:
            drop_output()
        say(str(error))
        return 1


def written_arguments(words: Optional[Sequence[str]]) -> argparse.Namespace:
    """Does the same as arguments(). If that has a text for standard output and ends the program, as
    for --help, the text is written here: argparse hides that it couldn't be written."""
    text = io.StringIO()
    try:
        with contextlib.redirect_stdout(text):
            return arguments(words)
    except SystemExit:
        if text.getvalue():
            with writing_to(STANDARD_OUTPUT_NAME):
                standard_output().write(text.getvalue())
                sys.stdout.flush()
        raise


@contextlib.contextmanager
def ended_by_signals() -> Iterator[None]:
    """Within the `with` SIGTERM and SIGHUP end the program as Ctrl-C does: it closes its server,
    and removes a file that isn't complete. Another one doesn't interrupt that: systemd may send
    both, and a terminal that is closed SIGHUP twice."""
    def end(number: int, _: Any) -> None:
        if not isinstance(sys.exc_info()[1], (KeyboardInterrupt, SystemExit)):
            raise SystemExit(128 + number)

    is_main = threading.current_thread() is threading.main_thread()
    taken = [number for number in (signal.SIGTERM, signal.SIGHUP)
             if is_main and signal.getsignal(number) == signal.SIG_DFL]
    try:
        for number in taken:
            signal.signal(number, end)
        yield
    finally:
        for number in taken:
            signal.signal(number, signal.SIG_DFL)


def drop_output() -> None:
    """Lets nothing more go to standard output. At exit Python flushes it, which would report the
    same error again."""
    os.dup2(os.open(os.devnull, os.O_WRONLY), sys.stdout.fileno())


def say(words: str) -> None:
    """Writes a line to standard error. A picture's name in it can't control a terminal."""
    shown = CONTROLS.sub(lambda found: repr(found[0])[1:-1], words)
    # print() would take standard output if standard error is closed.
    if sys.stderr is not None:
        print(f"feqyldan: {shown}", file=sys.stderr)


def draw(told: argparse.Namespace) -> int:
    drawing = drawing_of_file(told.graph)
    with writing_to(STANDARD_OUTPUT_NAME):
        # An SVG file, and one of Graphviz, is UTF-8 in any locale.
        target = standard_output("utf-8")
        target.write(drawing.dot if told.dot else drawing.svg)
        target.flush()
    return 0


def studio(told: argparse.Namespace) -> int:
    from .studio import serve
    graph, patterns = told.graph, told.pictures
    if not graph.endswith(".json"):
        graph, patterns = STATION, [graph, *patterns]
    pictures = [path for pattern in patterns for path in (
        pictures_in(pattern) if os.path.isdir(pattern) else paths_of([pattern]))]
    serve(graph, pictures, told.port, not told.no_browser)
    return 0


def pictures_in(folder: str) -> List[str]:
    """Returns the paths of the picture files in a folder, in natural order."""
    found = sorted((os.path.join(folder, name) for name in os.listdir(folder)
                    if name.lower().endswith(PICTURES)), key=natural)
    if not found:
        raise FileNotFoundError(f"{folder} has no picture: name a folder with files such as *.png")
    return found


def run(told: argparse.Namespace) -> int:
    paths = paths_of(told.pictures, told.skip)
    with ExitStack() as ends:
        ends.enter_context(ended_by_signals())
        server = ends.enter_context(connect(told.socket, retry=10) if told.socket is not None
                                    else Server())
        context = ends.enter_context(server.context())
        contents = told_by(told.graph)
        station = Reader(context, told.graph).read(contents)
        camera = input_of(station, told.graph)
        report = Report(told, paths, files_read(told.graph, contents), station, ends)
        pictures = Pictures(progress(paths, told.quiet), camera, report.skip if told.skip else None)
        results = station.graph.stream(pictures, camera, list(station.outputs.values()))
        for path, values in with_paths(results, pictures):
            report.add(path, dict(zip(station.outputs, values)))
        # If all pictures were skipped, the CSV file has only its head.
        report.end()
    if pictures.skipped:
        say(f"{pictures.skipped} of {len(paths)} pictures were skipped")
    return SKIPPED if pictures.skipped else 0


class Pictures:
    """
    Loads pictures for a stream. `pending` has the paths of those without a result. With `skip`, a
    picture that can't be read, or that isn't one for the camera, is named and counted, and skip()
    gets its path.
    """

    def __init__(self, paths: Iterable[str], camera: AnyImage,
                 skip: Optional[Callable[[str], None]]) -> None:
        self._paths, self._camera, self._skip = paths, camera, skip
        self.pending: Deque[str] = deque()
        self.skipped = 0

    def __iter__(self) -> Iterator[Any]:
        for path in self._paths:
            try:
                picture = self._load(path)
            except FAULTS as error:
                if self._skip is None:
                    raise
                self.skipped += 1
                say(f"skipped {in_words(error, path)}")
                self._skip(path)
                continue
            self.pending.append(path)
            yield picture

    def _load(self, path: str) -> Any:
        picture = load(path)
        if self._skip is not None:
            self._camera._look_at_samples(samples_of(picture, self._camera._described), "")
        return picture


def with_paths(results: Iterator[Tuple[Any, Tuple[Any, ...]]],
               pictures: Pictures) -> Iterator[Tuple[str, Tuple[Any, ...]]]:
    """Yields the path of each picture with its results. Raises ValueError that names the file."""
    while True:
        try:
            _, values = next(results)
        except StopIteration:
            return
        except FAULTS as error:
            # A picture that couldn't be loaded isn't pending, and its error has its path.
            path = pictures.pending[0] if pictures.pending else ""
            raise ValueError(in_words(error, path)) from None
        yield pictures.pending.popleft(), values


def in_words(error: BaseException, path: str) -> str:
    """Returns the words of an error about a picture, with the picture's path."""
    words = cause_of(error) if isinstance(error, Exception) else str(error)
    if isinstance(error, Refused):
        # The place is a line of this file, which tells the user nothing.
        words = words.replace(error.place, error.place.partition(",")[0])
    return words if not path or words.startswith(f"{path}: ") else f"{path}: {words}"


def paths_of(patterns: Sequence[str], takes_missing: bool = False) -> List[str]:
    """Returns the paths that match the patterns, pattern by pattern, each in the natural order of
    names. With `takes_missing` a name that is no pattern is returned if it has no file, too."""
    found: List[str] = []
    for pattern in patterns:
        if os.path.isdir(pattern):
            inside = os.path.join(pattern, "*.png")
            raise IsADirectoryError(f"{pattern} is a folder: name its pictures, as in '{inside}'")
        paths = matches_of(pattern)
        if not paths and takes_missing and glob.escape(pattern) == pattern:
            paths = [pattern]
        if not paths:
            raise FileNotFoundError(f"no file matches {pattern}: check the name or the pattern")
        found += paths
    return found


def matches_of(pattern: str) -> List[str]:
    """Returns the files of a name or a pattern, in natural order. Raises ValueError for a name such
    as part[1].pgm if there is a part1.pgm too: nobody knows which of them is meant."""
    # What can't be read, as a link to nothing, is told by whoever reads it.
    found = sorted((path for path in glob.glob(pattern, recursive=True) if not os.path.isdir(path)),
                   key=natural)
    if pattern in found or not os.path.exists(pattern):
        return found
    if found:
        raise ValueError(f"{pattern} is the name of a file, and a pattern that matches {found[0]}: "
                         f"rename the file, or name it alone, as in '{glob.escape(pattern)}'")
    return [pattern]


def progress(paths: List[str], is_quiet: bool) -> Iterator[str]:
    """Yields the paths, with a progress bar at a terminal if tqdm is installed."""
    if is_quiet or sys.stderr is None or not sys.stderr.isatty():
        return iter(paths)
    try:
        from tqdm import tqdm
    except ImportError:
        return counted(paths)
    return iter(tqdm(paths, unit=" pictures"))


def counted(paths: List[str]) -> Iterator[str]:
    start = time.monotonic()
    for number, path in enumerate(paths, 1):
        rate = number / max(1e-9, time.monotonic() - start)
        sys.stderr.write(f"\r{number} of {len(paths)} pictures, {rate:.0f} a second ")
        yield path
    sys.stderr.write("\n")


if __name__ == "__main__":
    sys.exit(main())
