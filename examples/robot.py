#!/usr/bin/env python3
"""A robot whose programs each have their own server, and continue after a restart of the servers.

    examples/robot.py

Starts a door, which starts a server for each connection, and two programs. Each program has a graph
and processes 10 pictures a second. After a second the example stops the door and its servers, and
starts a new door another second later. Each program reconnects, rebuilds its graph and repeats the
interrupted picture, so no picture is lost. A program that has done no picture since it connected
gives up instead. Prints a summary of each program.
"""

from __future__ import annotations

import multiprocessing
import os
import random
import subprocess
import sys
import tempfile
import time
from typing import Any, Callable, List, Tuple

import feqyldan as vx
from feqyldan import program

WIDTH, HEIGHT, PICTURES, RATE = 320, 240, 40, 10
Build = Callable[[vx.Context], Tuple[vx.Graph, vx.Image, vx.Image]]


# ---- the graphs

def outlines(context: vx.Context) -> Tuple[vx.Graph, vx.Image, vx.Image]:
    """Builds the morphological gradient: a dilation minus an erosion."""
    camera, out = (context.image(vx.U8, WIDTH, HEIGHT, name=name) for name in ("camera", "out"))
    graph = context.graph(name="outlines")
    bright, dark = graph.virtual_image(vx.U8), graph.virtual_image(vx.U8)
    graph.dilate3x3(camera, bright, border=vx.REPLICATE)
    graph.erode3x3(camera, dark, border=vx.REPLICATE)
    graph.subtract(bright, dark, vx.SATURATE, out)
    graph.verify()
    return graph, camera, out


def clean(context: vx.Context) -> Tuple[vx.Graph, vx.Image, vx.Image]:
    """Builds a median, which removes specks."""
    camera, out = (context.image(vx.U8, WIDTH, HEIGHT, name=name) for name in ("camera", "out"))
    graph = context.graph(name="clean")
    graph.median3x3(camera, out, border=vx.REPLICATE)
    graph.verify()
    return graph, camera, out


# ---- a program

def work(path: str, name: str, build: Build, begun: Any, told: Any) -> None:
    """Processes all pictures in order, even if the server goes away meanwhile. Raises
    vx.ServerEnded or vx.TimedOut if no picture was done since it connected."""
    pictures = [random.Random(number).randbytes(WIDTH * HEIGHT) for number in range(PICTURES)]
    done, built = 0, 0
    while done < PICTURES:
        before = done
        try:
            with vx.connect(path, retry=30, timeout=10) as server, server.context() as context:
                graph, camera, out = build(context)
                built += 1
                while done < PICTURES:
                    camera.write(pictures[done])
                    graph.process()
                    out.read()
                    done += 1
                    begun.set()
                    time.sleep(1 / RATE)
        except (vx.ServerEnded, vx.TimedOut):
            # The context is gone with its server: reconnect and rebuild the graph.
            if done == before:
                raise
            time.sleep(1)
    told.put(f"    {name}: {done} pictures, built {built} times")


# ---- the robot

def start_door(path: str) -> "subprocess.Popen[bytes]":
    return subprocess.Popen([sys.executable, "-m", "feqyldan.door", "--socket", path, "--",
                             program.find(), "serve"], stderr=subprocess.DEVNULL)


def main() -> None:
    with tempfile.TemporaryDirectory() as folder:
        path = os.path.join(folder, "socket")
        begun: List[Any] = [multiprocessing.Event() for _ in range(2)]
        told: Any = multiprocessing.SimpleQueue()
        door = start_door(path)
        programs: List[multiprocessing.Process] = [
            multiprocessing.Process(target=work, args=(path, name, build, event, told))
            for (name, build), event in zip((("front", outlines), ("belt", clean)), begun)]
        for one in programs:
            one.start()
        for event in begun:
            event.wait(30)
        time.sleep(1)
        door.terminate()
        door.wait()
        time.sleep(1)
        door = start_door(path)
        for one in programs:
            one.join()
        for line in sorted(told.get() for one in programs if one.exitcode == 0):
            print(line)
        door.terminate()
        print(f"    the door ended with status {door.wait()}")
        if any(one.exitcode for one in programs):
            sys.exit("examples/robot.py: a program gave up")


if __name__ == "__main__":
    main()
