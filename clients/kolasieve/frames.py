"""Frames between a process and its child: a few texts each, with their lengths."""

import struct

NUMBER = struct.Struct(">I")


def framed(texts):
    """Returns a frame of texts, which are bytes."""
    return b"".join([NUMBER.pack(len(texts)), *(NUMBER.pack(len(each)) + each for each in texts)])


def read_frame(file):
    """Returns the texts of the next frame of an open file. Raises EOFError at its end."""
    count, texts = read_number(file), []
    for _ in range(count):
        texts.append(read_all(file, read_number(file)))
    return texts


def read_number(file):
    return NUMBER.unpack(read_all(file, NUMBER.size))[0]


def read_all(file, count):
    text = file.read(count)
    if len(text) < count:
        raise EOFError
    return text


async def receive_frame(stream):
    """Returns the texts of the next frame of a stream. Raises IncompleteReadError at its end."""
    count, texts = await receive_number(stream), []
    for _ in range(count):
        texts.append(await stream.readexactly(await receive_number(stream)))
    return texts


async def receive_number(stream):
    return NUMBER.unpack(await stream.readexactly(NUMBER.size))[0]
