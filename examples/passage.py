"""A video file's way through Debian's GStreamer, for video.py"""

import itertools

import gi

gi.require_version("Gst", "1.0")
from gi.repository import Gst  # noqa: E402

Gst.init(None)

# by GStreamer's name of a stream: its parser, and the form in which a buffer is a picture
PARSERS = {
    "video/x-h264": ("h264parse", "video/x-h264,stream-format=byte-stream,alignment=au"),
    "video/mpeg": ("mpegvideoparse", "video/mpeg,mpegversion=2,systemstream=false"),
}


class Change(Gst.Element):
    """An element that puts `change` of a picture's time and its data in the place of the data."""

    __gstmetadata__ = ("Change", "Filter/Video", "changes the data of each picture", "ccsuite")
    __gsttemplates__ = tuple(Gst.PadTemplate.new(name, direction, Gst.PadPresence.ALWAYS, Gst.Caps.new_any())
                             for name, direction in (("sink", Gst.PadDirection.SINK), ("src", Gst.PadDirection.SRC)))

    def __init__(self, change):
        super().__init__()
        self.change = change
        self.taken, self.given = (Gst.Pad.new_from_template(self.get_pad_template(it), it) for it in ("sink", "src"))
        self.taken.set_chain_function_full(self.chain, None)
        self.add_pad(self.taken)
        self.add_pad(self.given)

    def chain(self, _pad, _parent, old):
        new = Gst.Buffer.new_wrapped(self.change(None if old.pts == Gst.CLOCK_TIME_NONE else old.pts, old.extract_dup(0, old.get_size())))
        new.pts, new.dts, new.duration = old.pts, old.dts, old.duration
        new.set_flags(old.get_flags())
        return self.given.push(new)


class Passage:
    """
    A file's way through GStreamer to a muxer, or to nothing: `change` goes over the time and the data of each picture, and all else passes as it
    is. `refuse` ends the program with a text, where GStreamer lacks or refuses something.
    """

    def __init__(self, file, change, refuse, muxer=None):
        self.change, self.refuse, self.has_pictures = change, refuse, False
        self.pipeline = Gst.parse_launch("filesrc name=file ! parsebin name=streams")
        self.pipeline.get_by_name("file").set_property("location", file)
        self.pipeline.get_by_name("streams").connect("pad-added", self.add)
        self.muxer = muxer and self.element(muxer[0])
        if muxer:
            sink = self.element("filesink")
            sink.set_property("location", muxer[1])
            self.muxer.link(sink)

    def element(self, name):
        made = name if isinstance(name, Gst.Element) else Gst.ElementFactory.make(name)
        if made is None:
            self.refuse(f"GStreamer's {name} isn't installed")
        self.pipeline.add(made)
        made.sync_state_with_parent()
        return made

    def add(self, _streams, pad):
        """Takes a stream of the file on: pictures by way of the change."""
        name = pad.query_caps(None).get_structure(0).get_name()
        if name in PARSERS and not self.has_pictures:
            self.has_pictures = True
            pad = self.through_change(pad, *PARSERS[name])
        queue = self.element("queue")
        # as much as streams may lie apart in a file
        for limit, most in (("time", 0), ("buffers", 0), ("bytes", 100_000_000)):
            queue.set_property(f"max-size-{limit}", most)
        pad.link(queue.get_static_pad("sink"))
        given = queue.get_static_pad("src")
        sink = self.muxer and self.muxer.get_compatible_pad(given, pad.query_caps(None))
        if sink is None:
            sink = self.element("fakesink").get_static_pad("sink")
        given.link(sink)

    def through_change(self, pad, parser, form):
        """The pad at which the pictures of a pad come out changed."""
        caps = self.element("capsfilter")
        caps.set_property("caps", Gst.Caps.from_string(form))
        row = [self.element(parser), caps, self.element(Change(self.change)), self.element(parser)]
        for first, second in itertools.pairwise(row):
            first.link(second)
        pad.link(row[0].get_static_pad("sink"))
        return row[-1].get_static_pad("src")

    def run(self):
        self.pipeline.set_state(Gst.State.PLAYING)
        message = self.pipeline.get_bus().timed_pop_filtered(Gst.CLOCK_TIME_NONE, Gst.MessageType.EOS | Gst.MessageType.ERROR)
        self.pipeline.set_state(Gst.State.NULL)
        if message.type == Gst.MessageType.ERROR:
            self.refuse(f"GStreamer: {message.parse_error()[0].message}")
        if not self.has_pictures:
            self.refuse("the file has no H.264 or MPEG-2 video that GStreamer reads")
