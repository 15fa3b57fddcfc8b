"""Prints how many samples changed between the frames of a moving ball, by the GStreamer element's
messages. Needs the element and GStreamer's Python package: docs/gstreamer.md."""

import os

import gi
gi.require_version("Gst", "1.0")
from gi.repository import Gst  # noqa: E402

Gst.init(None)
graph = os.path.join(os.path.dirname(os.path.abspath(__file__)), "motion.json")
line = Gst.parse_launch("videotestsrc num-buffers=10 pattern=ball ! video/x-raw,format=GRAY8 ! "
                        f'feqyldan graph="{graph}" ! fakesink')
line.set_state(Gst.State.PLAYING)
while True:
    message = line.get_bus().timed_pop(Gst.CLOCK_TIME_NONE)
    if message.type == Gst.MessageType.ELEMENT and message.has_name("feqyldan"):
        results = message.get_structure()
        print(results.get_uint64("frame")[1], results.get_value("counts")[1], "samples changed")
    elif message.type in (Gst.MessageType.EOS, Gst.MessageType.ERROR):
        break
line.set_state(Gst.State.NULL)
if message.type == Gst.MessageType.ERROR:
    raise SystemExit(message.parse_error()[0].message)
