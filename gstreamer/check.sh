#!/usr/bin/env bash
# Builds the plugin, and compares what it makes of frames with what the program makes of them, byte for byte: every pair of formats
# that both sides know, odd widths, frames with and without padding, and several matrices and ranges.
# usage: gstreamer/check.sh [PROGRAM [ARCHIVE [INCLUDE]]]
# Without them: out/sws, which ./sws builds, the archive that embedding/build.sh builds, and the folder of its header.
set -euo pipefail
here=$(cd "$(dirname "${BASH_SOURCE[0]}")" && pwd)
top=$(dirname "$here")
work=$(mktemp -d)
trap 'rm -rf "$work"' EXIT

skip() {
    echo "gstreamer: $1: swsconvert was not built or compared"
    exit 0
}

# LLVM's libunwind, which GStreamer's headers may be installed with, has no file for pkg-config, and theirs asks for one.
if ! pkg-config --exists libunwind 2>/dev/null; then
    mkdir "$work/pkgconfig"
    printf 'Name: libunwind\nDescription: none\nVersion: 0\n' >"$work/pkgconfig/libunwind.pc"
    export PKG_CONFIG_PATH=$work/pkgconfig${PKG_CONFIG_PATH:+:$PKG_CONFIG_PATH}
fi
for command in cc make pkg-config gst-launch-1.0 gst-inspect-1.0; do
    command -v $command >/dev/null || skip "$command is not installed"
done
pkg-config --exists gstreamer-video-1.0 || skip "libgstreamer-plugins-base1.0-dev is not installed"
export GST_PLUGIN_PATH=$work GST_REGISTRY=$work/registry
for element in videotestsrc rawvideoparse; do
    gst-inspect-1.0 --exists $element || skip "gstreamer1.0-plugins-base is not installed"
done

program=${1:-$top/out/sws}
[ -x "$program" ] || "$top/sws" --task list >/dev/null
archive=${2:-$work/lib/libsws.a}
[ $# -ge 2 ] || "$top/embedding/build.sh" "$work/lib"
make -s -C "$here" OUT="$work" SWS_LIB="$archive" SWS_INCLUDE="${3:-$top/embedding/include}" all "$work/frames"
frames=$work/frames
rm -f "$GST_REGISTRY"
gst-inspect-1.0 swsconvert >/dev/null || { echo "gstreamer: the plugin is not loaded" >&2; exit 1; }

"$program" --task list | "$frames" layouts
"$frames" table >"$work/table"

fail() {
    echo "gstreamer: $1" >&2
    exit 1
}

# A side is '-' where neither caps nor words say anything, else range:matrix by the numbers of GStreamer's colorimetry; range 0
# is none.
ranges=("" full limited) matrices=("" "" fcc bt709 bt601 smpte240m bt2020)

# what the caps of a side say, and the words for the program, by the kind of the format
declare -A caps words
set_side() { # in or out, side
    local kind range=${ranges[${2%:*}]} matrix=${matrices[${2#*:}]}
    for kind in rgb gray yuv; do
        caps[$1/$kind]=$2:0:0
        words[$1/$kind]="--$1-matrix $matrix ${range:+--$1-range $range}"
    done
    caps[$1/rgb]=1:1:0:0 words[$1/rgb]=
}
leave_open() { # in or out
    local kind
    for kind in rgb gray yuv; do
        caps[$1/$kind]= words[$1/$kind]=
    done
}

# two frames of a format: drawn, with GStreamer's strides, or of any bytes, with nothing between rows
source_of() { # format, colorimetry
    local planes
    if [ "$drawn" = drawn ]; then
        echo "videotestsrc num-buffers=2 ! video/x-raw,format=$1,width=$width,height=$height${2:+,colorimetry=(string)$2}"
        return
    fi
    planes=$("$frames" planes "$width" "$height" "$1")
    echo "fakesrc num-buffers=2 filltype=random sizetype=fixed sizemax=${planes##*=} !" \
        "rawvideoparse format=$(tr A-Z_ a-z- <<<"$1") width=$width height=$height ${2:+colorimetry=$2} $planes"
}

# whether frames pass the element untouched
passes() { [ "$from" = "$to" ] && [ "${caps[in/$from_kind]}" = "${caps[out/$to_kind]}" ]; }

# makes the frames of a source format, and in $work/made what swsconvert makes of them in every format, without padding
convert_all() {
    local to name to_kind pipeline padded=()
    pipeline="$(source_of "$from" "${caps[in/$from_kind]}") ! tee name=t"
    pipeline+=" t. ! filesink async=false sync=false location=$work/source"
    while read -r to name to_kind; do
        pipeline+=" t. ! swsconvert dither=$dither ! video/x-raw,format=$to"
        pipeline+="${caps[out/$to_kind]:+,colorimetry=(string)${caps[out/$to_kind]}}"
        pipeline+=" ! filesink async=false sync=false location=$work/made/$to"
        passes || padded+=("$to=$work/made/$to")
    done <"$work/table"
    gst-launch-1.0 -q $pipeline >"$work/log" 2>&1 || { cat "$work/log" >&2; fail "no frames of $from"; }

    cp "$work/source" "$work/packed"
    [ "$drawn" = random ] || padded+=("$from=$work/packed")
    "$frames" strip "$width" "$height" "${padded[@]}"
}

compared=0
compare_all() {
    local to to_name to_kind
    while read -r to to_name to_kind; do
        if passes; then
            # bits that hold nothing pass too, where the program sets them to 0
            cmp "$work/source" "$work/made/$to" >&2 || fail "$from: frames that pass are changed"
        else
            "$program" --in "$from_name" --out "$to_name" --size "${width}x$height" --dither "$dither" \
                ${words[in/$from_kind]} ${words[out/$to_kind]} <"$work/packed" >"$work/wanted"
            cmp "$work/wanted" "$work/made/$to" >&2 ||
                fail "$drawn $from to $to, ${width}x$height, dither $dither, $in to $out: differs"
        fi
        compared=$((compared + 1))
    done <"$work/table"
}

mkdir "$work/made"
while read -r drawn width height dither in out; do
    if [ "$in" = - ]; then leave_open in; else set_side in "$in"; fi
    if [ "$out" = - ]; then leave_open out; else set_side out "$out"; fi
    while read -r from from_name from_kind; do
        convert_all
        compare_all
    done <"$work/table"
done <<'END'
drawn  17 19 0 -   -
drawn  35 18 3 1:3 2:6
random 13  6 1 2:5 1:2
random  1  1 0 0:6 1:4
END
count=$(wc -l <"$work/table")
echo "gstreamer: $compared conversions compared with the program, $count formats to $count, no difference"
