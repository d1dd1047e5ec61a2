#!/usr/bin/env bash
# Passes frames between ffmpeg and sws both ways, for each of the ten YUV4MPEG2 colour tags, and compares bytes.
# usage: interop/ffmpeg.sh [PROGRAM]     PROGRAM is ./sws where none is given
set -euo pipefail
top=$(cd "$(dirname "${BASH_SOURCE[0]}")/.." && pwd)
sws=${1:-$top/sws}
formats="yuv444p yuv444p9le yuv444p10le yuv444p12le yuv444p14le yuv444p16le gray gray10le gray12le gray16le"
width=46 height=30 frames=3

if ! command -v ffmpeg >/dev/null; then
    echo "ffmpeg is not installed: nothing was passed between it and sws"
    exit 0
fi
work=$(mktemp -d)
trap 'rm -rf "$work"' EXIT

# ffmpeg without its banner, its questions and its reading of the terminal
quiet_ffmpeg() { ffmpeg -hide_banner -loglevel error -nostdin -y "$@"; }

# frames of the format $1 as ffmpeg draws them, in a YUV4MPEG2 stream
drawn() {
    quiet_ffmpeg -f lavfi -i "testsrc2=size=${width}x$height:rate=25" -frames:v $frames -pix_fmt "$1" -strict -1 \
        -f yuv4mpegpipe "$2"
}

# the raw frames of the format $1 that ffmpeg reads from a YUV4MPEG2 stream on standard input
as_ffmpeg_reads() { quiet_ffmpeg -f yuv4mpegpipe -i - -pix_fmt "$1" -f rawvideo "$2"; }

passed=0 failed=0
same() { # what it is, the bytes wanted, the bytes found
    if cmp -s "$2" "$3"; then
        passed=$((passed + 1))
    else
        failed=$((failed + 1))
        echo "differs: $1"
    fi
}

for format in $formats; do
    clip=$work/clip.y4m raw=$work/raw found=$work/found
    drawn "$format" "$clip"
    as_ffmpeg_reads "$format" "$raw" <"$clip"

    "$sws" --from y4m --out "$format" <"$clip" >"$found"
    same "$format: ffmpeg's stream, read by sws" "$raw" "$found"

    "$sws" --from y4m --to y4m --out "$format" <"$clip" | as_ffmpeg_reads "$format" "$found"
    same "$format: ffmpeg's stream, passed on by sws, read by ffmpeg" "$raw" "$found"

    "$sws" --in "$format" --size "${width}x$height" --to y4m --out "$format" <"$raw" | as_ffmpeg_reads "$format" "$found"
    same "$format: raw frames, put into a stream by sws, read by ffmpeg" "$raw" "$found"

    # 16 bits hold what fewer do, so there and back through ffmpeg gives the frames that were drawn
    case $format in gray*) wide=gray16le ;; *) wide=yuv444p16le ;; esac
    "$sws" --from y4m --to y4m --out "$wide" <"$clip" |
        quiet_ffmpeg -f yuv4mpegpipe -i - -c:v wrapped_avframe -strict -1 -f yuv4mpegpipe - |
        "$sws" --from y4m --out "$format" >"$found"
    same "$format: to 16 bits by sws, through ffmpeg, and back by sws" "$raw" "$found"
done
echo "between ffmpeg and sws: $passed comparisons passed, $failed failed"
[ "$failed" = 0 ]
