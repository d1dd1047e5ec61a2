#!/usr/bin/env python3
"""How much faster four workers convert than one, and how much memory a large frame takes.

    bench/workers.py PROGRAM [--pair "IN OUT"] [--frames N] [--size WxH] [--runs K]
    bench/workers.py PROGRAM --board [--runs K]
    bench/workers.py PROGRAM --memory

The first form converts the same frames, of rgb24 to yuv444p unless another pair is given, with one worker, with four, and
by four programs of one worker beside each other, in turn; it prints the frames a second of each, and by how much the second and the third are more
than the first: what four programs give is what the processors have to give at the time. Of K runs the fastest of each
counts. The second shows what a board costs a
frame: the frames a second of rgb24 to bgr24, small and large, as one slice (which costs no thread) and in eight
slices, each with one worker (which costs none either) and with four. The third prints the peak memory of one
8192x4096 frame of rgb24 to bgr24 with 64 workers, in slices of one row and of 16384. The processors have to be free.
"""
import argparse
import os
import resource
import subprocess
import sys
import tempfile
import time


# the bytes of a source pixel
PIXEL_BYTES = {"gray": 1, "gray16le": 2, "rgb24": 3, "nv24": 3, "yuv444p": 3, "rgba": 4, "rgb48le": 6, "yuv444p10le": 6}


def convert(program, source, pair, width, height, workers, slice_height, programs=1):
    """Seconds that the conversion of a file of frames takes, where so many programs do it beside each other."""
    words = [program, "--in", pair[0], "--out", pair[1], "--size", "%dx%d" % (width, height)]
    words += ["--workers", str(workers), "--slice", str(slice_height)]
    start = time.monotonic()
    running = []
    for _ in range(programs):
        with open(source, "rb") as frames:
            running.append(subprocess.Popen(words, stdin=frames, stdout=subprocess.DEVNULL))
    for one in running:
        if one.wait() != 0:
            sys.exit("a conversion failed")
    return time.monotonic() - start


def write_frames(path, width, height, frames, pixel_bytes=3):
    """Frames whose bytes differ from each other."""
    row = bytes((7 * x + x // 251) % 256 for x in range(pixel_bytes * width))
    with open(path, "wb") as out:
        for y in range(frames * height):
            turn = y % len(row)
            out.write(row[turn:] + row[:turn])


def speed(program, source, pair, width, height, frames, runs):
    write_frames(source, width, height, frames, PIXEL_BYTES[pair[0]])
    slice_height = max(1, height // 64)
    best = {}
    for _ in range(runs):
        for workers, programs in ((1, 1), (4, 1), (1, 4)):
            seconds = convert(program, source, pair, width, height, workers, slice_height, programs)
            best[workers, programs] = min(seconds, best.get((workers, programs), seconds))
    for (workers, programs), seconds in best.items():
        rate = programs * frames / seconds
        ratio = programs * best[1, 1] / seconds
        print("%d x %d workers: %8.1f frames a second, %.2f times" % (programs, workers, rate, ratio), flush=True)
    print("on %d processors" % os.cpu_count())


def board(program, source, runs):
    print("%-11s%8s%14s%14s" % ("frames of", "slices", "1 worker", "4 workers"))
    for width, height, frames in ((64, 64, 10000), (1920, 1080, 30)):
        write_frames(source, width, height, frames)
        for slices in (1, 8):
            row = "%-11s%8d" % ("%dx%d" % (width, height), slices)
            for workers in (1, 4):
                seconds = min(
                    convert(program, source, ("rgb24", "bgr24"), width, height, workers, height // slices) for _ in range(runs))
                row += "%14.1f" % (frames / seconds)
            print(row, flush=True)


def memory(program, source):
    width, height = 8192, 4096
    write_frames(source, width, height, 1)
    for slice_height in (1, 16384):
        child = os.fork()
        if child == 0:
            convert(program, source, ("rgb24", "bgr24"), width, height, 64, slice_height)
            peak = resource.getrusage(resource.RUSAGE_CHILDREN).ru_maxrss
            frame = 3 * width * height
            print("slice %d: peak %d KiB; source and target frame are %d KiB" % (slice_height, peak, 2 * frame // 1024))
            sys.stdout.flush()
            os._exit(0)
        _, status = os.waitpid(child, 0)
        if status != 0:
            sys.exit("the run with slice %d failed" % slice_height)


def main():
    parser = argparse.ArgumentParser(description=__doc__, formatter_class=argparse.RawDescriptionHelpFormatter)
    parser.add_argument("program")
    parser.add_argument("--pair", default="rgb24 yuv444p")
    parser.add_argument("--frames", type=int, default=30)
    parser.add_argument("--size", default="1920x1080")
    parser.add_argument("--runs", type=int, default=3)
    parser.add_argument("--board", action="store_true")
    parser.add_argument("--memory", action="store_true")
    asked = parser.parse_args()
    width, height = (int(n) for n in asked.size.split("x"))
    pair = asked.pair.split()
    if len(pair) != 2 or pair[0] not in PIXEL_BYTES:
        sys.exit("a pair is two formats, of which the first is one of: " + ", ".join(PIXEL_BYTES))
    with tempfile.TemporaryDirectory() as folder:
        source = os.path.join(folder, "frames.rgb")
        if asked.memory:
            memory(asked.program, source)
        elif asked.board:
            board(asked.program, source, asked.runs)
        else:
            speed(asked.program, source, pair, width, height, asked.frames, asked.runs)


if __name__ == "__main__":
    main()
