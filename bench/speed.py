#!/usr/bin/env python3
"""Megapixels a second of sws beside ffmpeg and beside a program that only passes bytes, through pipes.

usage: bench/speed.py [--program PATH] [--only "IN OUT"] [--size WxH] [--rounds N] [--seconds S]

Each pair is run in turn by sws with one worker, by sws with four, by `ffmpeg -threads 1` where it is installed, and by `cat`;
the best of the rounds counts. A run gets as many frames as fill the wanted seconds (at least one). Rows that `ffmpeg` cannot
convert show a dash. The table's last two columns are the ratios of one worker to ffmpeg, and of four workers to one.
"""
import argparse
import os
import shutil
import subprocess
import threading
import time

TOP = os.path.dirname(os.path.dirname(os.path.abspath(__file__)))

# source and target format, the bits of a source pixel in memory, and further words for sws
PAIRS = [
    ("rgb24", "bgr24", 24, []),
    ("rgba", "bgra", 32, []),
    ("nv24", "yuv444p", 24, []),
    ("gray16le", "gray", 16, []),
    ("rgb24", "rgb565le", 24, []),
    ("rgb24", "yuv444p", 24, []),
    ("yuv444p", "rgb24", 24, []),
    ("yuv444p10le", "rgb24", 48, []),
    ("rgb48le", "rgb24", 48, []),
    ("x2rgb10le", "rgb48le", 32, []),
    ("yuva444p16le", "ayuv64le", 64, []),
    ("yuv444p", "yuv444p", 24, ["--in-range", "limited", "--out-range", "full", "--in-matrix", "bt601", "--out-matrix", "bt709"]),
    ("pal8", "rgba", 8, []),
    ("gray", "gray16be", 8, []),
]
PALETTE_BYTES = 1024
PIECE = 1 << 20


def source_frame(name, bits, width, height):
    """The bytes of one frame: every byte value occurs, in no order that a cache or a branch could learn."""
    length = width * height * bits // 8 + (PALETTE_BYTES if name == "pal8" else 0)
    block = bytes((index * 167 + (index >> 8) * 59 + 13) & 255 for index in range(65536))
    return (block * (length // len(block) + 1))[:length]


def feed(stream, frame, count):
    """Writes a frame so many times; a program that ends early ends the feeding."""
    try:
        for _ in range(count):
            view = memoryview(frame)
            while view:
                view = view[stream.write(view):]
    except BrokenPipeError:
        pass
    stream.close()


def seconds_of(command, frame, count):
    """The time that a command takes for so many frames, or None where it fails."""
    started = time.perf_counter()
    process = subprocess.Popen(
        command, stdin=subprocess.PIPE, stdout=subprocess.PIPE, stderr=subprocess.DEVNULL, bufsize=0)
    feeder = threading.Thread(target=feed, args=(process.stdin, frame, count))
    feeder.start()
    piece = bytearray(PIECE)
    taken = 0
    while got := process.stdout.readinto(piece):
        taken += got
    feeder.join()
    status = process.wait()
    return time.perf_counter() - started if status == 0 and taken > 0 else None


def megapixels_a_second(command, frame, pixels, rounds, wanted):
    """The best of the rounds, in megapixels a second, or None where the command fails."""
    first = seconds_of(command, frame, 1)
    if first is None:
        return None
    count = 1
    while first < wanted / 2 and count < 4096:
        count = min(4096, max(2 * count, int(count * wanted / first / 2)))
        first = seconds_of(command, frame, count)
    times = [first] + [seconds_of(command, frame, count) for _ in range(rounds - 1)]
    return count * pixels / min(times) / 1e6


def commands_of(program, source, target, size, words):
    """Each column's command."""
    sws = [program, "--in", source, "--out", target, "--size", size] + words
    ffmpeg = ["ffmpeg", "-hide_banner", "-loglevel", "error", "-nostdin", "-f", "rawvideo", "-pix_fmt", source, "-s", size,
              "-i", "-", "-threads", "1", "-filter_threads", "1"]
    if words:
        ffmpeg += ["-vf", "scale=in_range=limited:out_range=full:in_color_matrix=bt601:out_color_matrix=bt709"]
    ffmpeg += ["-f", "rawvideo", "-pix_fmt", target, "-"]
    return {
        "1 worker": sws + ["--workers", "1"],
        "4 workers": sws + ["--workers", "4"],
        "ffmpeg": ffmpeg if shutil.which("ffmpeg") else None,
        "cat": ["cat"],
    }


def shown(number, digits=0):
    return "-" if number is None else f"{number:.{digits}f}"


def ratio(number, other):
    return None if number is None or other is None else number / other


def main():
    parser = argparse.ArgumentParser(description=__doc__.splitlines()[0])
    parser.add_argument("--program", default=os.path.join(TOP, "out", "sws"))
    parser.add_argument("--only", help="one pair, as 'rgb24 yuv444p'")
    parser.add_argument("--size", default="1920x1080")
    parser.add_argument("--rounds", type=int, default=3)
    parser.add_argument("--seconds", type=float, default=1.0, help="what a run is to take, about")
    given = parser.parse_args()
    width, height = (int(part) for part in given.size.split("x"))
    columns = ["1 worker", "4 workers", "ffmpeg", "cat"]
    print(f"megapixels a second, frames of {given.size} through pipes, best of {given.rounds}")
    print(f"{'pair':40}" + "".join(f"{name:>11}" for name in columns + ["1 : ffmpeg", "4 : 1"]))
    for source, target, bits, words in PAIRS:
        if given.only and given.only.split() != [source, target]:
            continue
        frame = source_frame(source, bits, width, height)
        found = {}
        for name, command in commands_of(given.program, source, target, given.size, words).items():
            found[name] = command and megapixels_a_second(
                command, frame, width * height, given.rounds, given.seconds)
        title = f"{source} to {target}" + (" limited, bt601 to full, bt709" if words else "")
        print(f"{title:40}" + "".join(f"{shown(found[name]):>11}" for name in columns)
              + f"{shown(ratio(found['1 worker'], found['ffmpeg']), 2):>11}"
              + f"{shown(ratio(found['4 workers'], found['1 worker']), 2):>11}", flush=True)


if __name__ == "__main__":
    main()
