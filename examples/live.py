#!/usr/bin/env python3
"""Motion detection for a live camera, with a background that adapts to the light.

    examples/live.py FOLDER [VIDEO | NUMBER]

Reads the frames of a video, or of the camera with that number, through OpenCV. Without VIDEO and
NUMBER it makes test frames, 30 a second. A graph adds up the frames, and marks pixels that differ
both from the background and from the previous frame. After every 16 frames their mean becomes the
new background. A stream yields each result as soon as it is ready, even if the camera has no new
frame yet. Ctrl-C ends the program. It prints the number of frames and the latency of the results,
and writes FOLDER/live.png: the last frame with motion, and its marks.
"""

from __future__ import annotations

import os
import sys
import time
from collections import deque
from typing import Deque, Iterator, Tuple

import feqyldan as vx
from folder import folder_told

try:
    import cv2
    import numpy
    import numpy.typing
except ImportError:
    print("examples/live.py: OpenCV and NumPy aren't installed, so this example is skipped "
          "(Debian's python3-opencv)")
    sys.exit(0)

Picture = numpy.typing.NDArray[numpy.uint8]
# A background is the mean of 2 to the power of SHIFT frames.
SHIFT, ABOVE = 4, 24
WIDTH, HEIGHT, FRAMES, RATE = 1280, 720, 60, 30
# The latency is that of the last results, so that a camera may run for months.
LAST = 1000


class Camera:
    """Grey frames, with the times of arrival of those without a result."""

    def __init__(self, source: str) -> None:
        self.times: Deque[float] = deque()
        if source:
            self._video = cv2.VideoCapture(int(source) if source.isdigit() else source)
            self.width, self.height = (int(self._video.get(side)) for side in (
                cv2.CAP_PROP_FRAME_WIDTH, cv2.CAP_PROP_FRAME_HEIGHT))
            self._frames = self._of_video()
        else:
            self.width, self.height = WIDTH, HEIGHT
            self._frames = self._made()

    def __iter__(self) -> Iterator[Picture]:
        for frame in self._frames:
            self.times.append(time.perf_counter())
            yield frame

    def _of_video(self) -> Iterator[Picture]:
        is_there, frame = self._video.read()
        while is_there:
            yield numpy.asarray(cv2.cvtColor(frame, cv2.COLOR_BGR2GRAY), numpy.uint8)
            is_there, frame = self._video.read()

    def _made(self) -> Iterator[Picture]:
        """Draws a box that crosses a noisy belt while the light fades."""
        chance = numpy.random.default_rng(1)
        due = time.perf_counter()
        for number in range(FRAMES):
            frame = chance.integers(120 - number, 128 - number, (HEIGHT, WIDTH), numpy.uint8)
            if number >= FRAMES // 2:
                left = 40 * (number - FRAMES // 2)
                frame[300:420, left:left + 160] = 220
            due += 1 / RATE
            time.sleep(max(0.0, due - time.perf_counter()))
            yield frame


class Watch:
    """A graph that marks motion, and another one that updates the background."""

    def __init__(self, context: vx.Context, width: int, height: int) -> None:
        self.camera, self._background, self.marks = (
            context.image(vx.U8, width, height, name=name)
            for name in ("camera", "background", "marks"))
        self._sums = context.image(vx.S16, width, height, name="sums")
        smooth = context.delay(self.camera, 2, name="smooth")
        self.graph = graph = context.graph(name="watch")
        away, moved, far, fast, both, clean = (graph.virtual_image(vx.U8) for _ in range(6))
        limit = context.threshold(vx.U8, above=ABOVE)
        graph.accumulate(self.camera, self._sums)
        graph.gaussian3x3(self.camera, smooth[0], border=vx.REPLICATE)
        graph.absdiff(smooth[0], self._background, away)
        graph.absdiff(smooth[0], smooth[-1], moved)
        graph.threshold(away, limit, far)
        graph.threshold(moved, limit, fast)
        graph.and_(far, fast, both)
        graph.erode3x3(both, clean, border=vx.REPLICATE)
        graph.dilate3x3(clean, self.marks, border=vx.REPLICATE)
        self.counts = context.distribution(2, name="counts")
        graph.histogram(self.marks, self.counts)
        graph.register_auto_aging(smooth)
        graph.verify()
        # Two graphs, one that reads the sums and one that resets them: in one graph the reset would
        # run first.
        self._mean = context.graph(name="mean")
        self._mean.convert_depth(self._sums, self._background, vx.SATURATE, SHIFT)

    def renew(self) -> None:
        """Makes the background of the next frames from the sums so far."""
        self._mean.process()
        self._sums.fill(0)

    def look(self, frames: Camera) -> Iterator[Tuple[Picture, vx.Picture, int]]:
        """Yields each frame with its marks and the number of marked samples. Sends no frame ahead,
        so each background is the mean of the right frames."""
        for number, (frame, (marks, counts)) in enumerate(
                self.graph.stream(frames, self.camera, [self.marks, self.counts], ahead=0), 1):
            if number % (1 << SHIFT) == 0:
                self.renew()
            yield frame, marks, counts[1]


def main() -> None:
    folder = folder_told()
    name = sys.argv[2] if len(sys.argv) > 2 else ""
    camera = Camera(name)
    if not camera.width:
        sys.exit(f"examples/live.py: OpenCV can't read {name!r}: give a video or a camera's number")
    late: Deque[float] = deque(maxlen=LAST)
    seen, moved = 0, 0
    with vx.Server() as server, server.context() as context:
        watch = Watch(context, camera.width, camera.height)
        try:
            for frame, marks, count in watch.look(camera):
                late.append(time.perf_counter() - camera.times.popleft())
                seen += 1
                # The first background is 0 everywhere, because no frame has been seen yet.
                if count and seen > 1 << SHIFT:
                    moved += 1
                    shown = numpy.hstack([frame, marks])
        except KeyboardInterrupt:
            pass
    if not late:
        sys.exit("examples/live.py: no frame came")
    print(f"    {seen} frames of {camera.width} by {camera.height}; something moved in "
          f"{moved}")
    median = 1000 * sorted(late)[len(late) // 2]
    print(f"    a result came {median:.1f} ms after its frame (median)")
    if moved:
        vx.write_png(os.path.join(folder, "live.png"), shown)


if __name__ == "__main__":
    try:
        main()
    except vx.FeqyldanError as error:
        sys.exit(f"examples/live.py: {error}")
