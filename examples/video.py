#!/usr/bin/env python3
"""Motion in a video whose frames arrive at the pace of a camera.

    examples/video.py FOLDER [VIDEO]

Reads the frames of a video through OpenCV (Debian's python3-opencv) as NumPy arrays. Without VIDEO
it makes a video in FOLDER: parts on a belt, 1080p at 25 frames a second. The frames arrive at the
video's pace. If a frame arrives while an earlier frame still waits, the earlier frame is dropped. A
graph finds the bounding rectangle of the motion since the last processed frame. Prints the number
of processed and dropped frames and the time per frame, and writes FOLDER/video.png: frames with
that rectangle.
"""

import os
import sys
import threading
import time
from typing import Any, List, NamedTuple, Optional, Tuple

import feqyldan as vx
from bounds import add_bounds, rectangle_of
from folder import folder_told

try:
    import cv2
    import numpy
except ImportError:
    print("examples/video.py: OpenCV and NumPy aren't installed, so this example is skipped "
          "(Debian's python3-opencv)")
    sys.exit(0)

WIDTH, HEIGHT, RATE, FRAMES = 1920, 1080, 25, 75
# How many frames are drawn, how wide, and at most how many are kept for that.
SHOWN, SHOWN_WIDTH, KEPT = 4, 480, 12
RED = (30, 30, 230)


# ---- the video

def belt(time: int) -> Any:
    """Draws a frame, as blue, green and red from 0 to 255: a belt with rollers and two moving
    parts."""
    frame = numpy.full((HEIGHT, WIDTH, 3), 60, numpy.uint8)
    frame[300:780] = 90
    frame[300:780, ::160] = 70
    left = 20 * time
    cv2.rectangle(frame, (left, 400), (left + 240, 560), (170, 190, 200), -1)
    cv2.circle(frame, (left - 300, 640), 80, (120, 200, 160), -1)
    return frame


def make_video(path: str) -> str:
    video = cv2.VideoWriter(path, cv2.VideoWriter_fourcc(*"MJPG"), RATE, (WIDTH, HEIGHT))
    for time_of_frame in range(FRAMES):
        video.write(belt(time_of_frame))
    video.release()
    return path


class Camera(threading.Thread):
    """Reads frames at the video's pace, and keeps the newest one until it is taken."""

    def __init__(self, path: str) -> None:
        super().__init__(daemon=True)
        self._video = cv2.VideoCapture(path)
        self.width, self.height = (int(self._video.get(side)) for side in
                                   (cv2.CAP_PROP_FRAME_WIDTH, cv2.CAP_PROP_FRAME_HEIGHT))
        self.rate = self._video.get(cv2.CAP_PROP_FPS) or RATE
        self.dropped = 0
        self._newest: Optional[Any] = None
        self._has_ended = False
        self._changed = threading.Condition()

    def run(self) -> None:
        due = time.monotonic()
        try:
            is_there, frame = self._video.read()
            while is_there:
                due += 1 / self.rate
                time.sleep(max(0.0, due - time.monotonic()))
                self._put(frame)
                is_there, frame = self._video.read()
        finally:
            # Also after an error: take() would wait for ever.
            with self._changed:
                self._has_ended = True
                self._changed.notify()

    def _put(self, frame: Any) -> None:
        with self._changed:
            self.dropped += self._newest is not None
            self._newest = frame
            self._changed.notify()

    def take(self) -> Optional[Any]:
        """Waits for the next frame that has not been taken and returns it, or None after the last
        one."""
        with self._changed:
            self._changed.wait_for(lambda: self._newest is not None or self._has_ended)
            frame, self._newest = self._newest, None
            return frame


# ---- motion

class Seen(NamedTuple):
    around: Optional[vx.Rectangle]
    seconds: float


class Shown(NamedTuple):
    frame: Any
    around: Optional[vx.Rectangle]


class Thinned:
    """Keeps every frame at first, then every second one, then every fourth one and so on, so that a
    long video takes no more memory than a short one."""

    def __init__(self) -> None:
        self.kept: List[Shown] = []
        self._added, self._step = 0, 1

    def add(self, frame: Any, around: Optional[vx.Rectangle]) -> None:
        if self._added % self._step == 0:
            self.kept.append(Shown(frame, around))
        self._added += 1
        if len(self.kept) > KEPT:
            del self.kept[1::2]
            self._step *= 2


class Watch:
    """Builds a graph that finds the motion since the previous frame."""

    def __init__(self, context: vx.Context, width: int, height: int) -> None:
        self._context, self._width = context, width
        self._camera = context.image(vx.U8, width, height)
        self._smooth = context.delay(self._camera, 2)
        self._graph = graph = context.graph()
        difference, moved, clean = (graph.virtual_image() for _ in range(3))
        graph.gaussian3x3(self._camera, self._smooth[0], border=vx.REPLICATE)
        graph.absdiff(self._smooth[0], self._smooth[-1], difference)
        graph.threshold(difference, context.threshold(vx.U8, above=24), moved)
        graph.erode3x3(moved, clean, border=vx.REPLICATE)
        self._bounds = add_bounds(graph, clean, width, height)
        graph.verify()

    def look(self, frame: Any) -> Optional[vx.Rectangle]:
        with self._context.pipeline() as ahead:
            self._camera.write(cv2.cvtColor(frame, cv2.COLOR_BGR2GRAY))
            self._graph.process()
            self._smooth.age()
            asked = [ahead.read(extremes) for extremes in self._bounds]
        return rectangle_of([found.value() for found in asked], self._width)


def watch(camera: Camera) -> Tuple[List[Seen], List[Shown]]:
    """Returns what was seen in each frame but the first one, and some of these frames."""
    seen: List[Seen] = []
    some = Thinned()
    with vx.Server() as server, server.context() as context:
        graph = Watch(context, camera.width, camera.height)
        camera.start()
        frame = camera.take()
        # Before the first frame the delay is 0 everywhere, so every bright pixel counts as moved.
        if frame is not None:
            graph.look(frame)
            frame = camera.take()
        while frame is not None:
            start = time.monotonic()
            around = graph.look(frame)
            seen.append(Seen(around, time.monotonic() - start))
            some.add(frame, around)
            frame = camera.take()
    return seen, some.kept


def drawn(shown: Shown) -> Any:
    """Returns a reduced frame with the rectangle, in PNG's channel order."""
    frame = shown.frame.copy()
    if shown.around:
        x0, y0, x1, y1 = shown.around
        cv2.rectangle(frame, (x0 - 6, y0 - 6), (x1 + 5, y1 + 5), RED, 8)
    height = frame.shape[0] * SHOWN_WIDTH // frame.shape[1]
    return cv2.cvtColor(cv2.resize(frame, (SHOWN_WIDTH, height), interpolation=cv2.INTER_AREA),
                        cv2.COLOR_BGR2RGB)


def main() -> None:
    folder = folder_told()
    name = sys.argv[2] if len(sys.argv) > 2 else make_video(os.path.join(folder, "belt.avi"))
    camera = Camera(name)
    if not camera.width:
        sys.exit(f"examples/video.py: OpenCV can't read {name!r}: give a video")
    seen, kept = watch(camera)
    if not seen:
        sys.exit(f"examples/video.py: {name!r} has fewer than two frames: give a longer video")
    times = sorted(one.seconds for one in seen)
    print(f"    {camera.width} by {camera.height} at {camera.rate:g} frames a second: "
          f"{1 + len(seen)} frames seen, {camera.dropped} dropped")
    print(f"    each took {1000 * times[len(times) // 2]:.0f} ms, and none more than "
          f"{1000 * times[-1]:.0f} ms; something moved in "
          f"{sum(one.around is not None for one in seen)} of {len(seen)}")
    shown = [drawn(kept[k * (len(kept) - 1) // (SHOWN - 1)]) for k in range(SHOWN)]
    vx.write_png(os.path.join(folder, "video.png"), numpy.hstack(shown))


if __name__ == "__main__":
    try:
        main()
    except vx.FeqyldanError as error:
        sys.exit(f"examples/video.py: {error}")
