/* What check.sh has to know of frames from GStreamer itself.
 *
 * frames table                              a line for each shared format: GStreamer's name, that of sws, rgb or yuv or gray
 * frames strip WIDTH HEIGHT FORMAT=FILE..   files of frames with GStreamer's own strides: takes out what stands between rows
 * frames planes WIDTH HEIGHT FORMAT         the options for rawvideoparse of frames with nothing between rows
 * frames layouts                            compares the list of `sws --task list`, from standard input, with GStreamer's own reading
 */
#include <gst/video/video.h>
#include <stdio.h>
#include <stdlib.h>
#include <string.h>

#include "formats.h"

#define PIXELS 256
#define CHANNELS 4

/* As sws lists it: plane, bytes from pixel to pixel, bytes into the pixel, bit, bits. */
struct component
{
  int plane, step, offset, shift, depth;
};

struct layout
{
  char name[16], flags[8];
  int count;
  struct component components[CHANNELS];
};

static void
fail (const char *what, const char *of)
{
  fprintf (stderr, "frames: %s: %s\n", what, of);
  exit (1);
}

static const char *
kind_of (const GstVideoFormatInfo * info)
{
  if (GST_VIDEO_FORMAT_INFO_IS_RGB (info))
    return "rgb";
  return GST_VIDEO_FORMAT_INFO_IS_GRAY (info) ? "gray" : "yuv";
}

static int
print_table (void)
{
  gsize i;

  for (i = 0; i < G_N_ELEMENTS (shared_formats); i++)
    printf ("%s %s %s\n", gst_video_format_to_string (shared_formats[i].format),
        shared_formats[i].name,
        kind_of (gst_video_format_get_info (shared_formats[i].format)));
  return 0;
}

static GstVideoInfo
info_of (const char *format, char **size)
{
  GstVideoInfo info;

  if (!gst_video_info_set_format (&info, gst_video_format_from_string (format),
          atoi (size[0]), atoi (size[1])))
    fail ("no such frame", format);
  return info;
}

/* --- frames --- */

/* Moves the rows of a frame together to `to`, and gives where they end. */
static guint8 *
strip_frame (const GstVideoInfo * info, const guint8 * frame, guint8 * to)
{
  guint plane;
  int row;

  for (plane = 0; plane < GST_VIDEO_INFO_N_PLANES (info); plane++) {
    const guint8 *at = frame + GST_VIDEO_INFO_PLANE_OFFSET (info, plane);
    gsize length = shared_row_bytes (info, plane);

    for (row = 0; row < GST_VIDEO_INFO_HEIGHT (info); row++) {
      memmove (to, at, length);
      to += length;
      at += GST_VIDEO_INFO_PLANE_STRIDE (info, plane);
    }
  }
  return to;
}

static void
strip_file (const char *format, const char *file, char **size)
{
  GstVideoInfo info = info_of (format, size);
  gsize frame = GST_VIDEO_INFO_SIZE (&info), length, at;
  gchar *bytes;
  guint8 *end;

  if (!g_file_get_contents (file, &bytes, &length, NULL) || length % frame != 0)
    fail ("not frames", file);
  end = (guint8 *) bytes;
  for (at = 0; at < length; at += frame)
    end = strip_frame (&info, (guint8 *) bytes + at, end);
  if (!g_file_set_contents (file, bytes, end - (guint8 *) bytes, NULL))
    fail ("cannot be written", file);
  g_free (bytes);
}

/* Each argument is FORMAT=FILE. */
static int
strip (int count, char **arguments, char **size)
{
  int i;

  for (i = 0; i < count; i++) {
    char *file = strchr (arguments[i], '=');

    if (file == NULL)
      fail ("no file", arguments[i]);
    *file = 0;
    strip_file (arguments[i], file + 1, size);
  }
  return 0;
}

static int
print_planes (GstVideoInfo info)
{
  GString *strides = g_string_new (NULL), *offsets = g_string_new (NULL);
  gsize at = 0;
  guint plane;

  for (plane = 0; plane < GST_VIDEO_INFO_N_PLANES (&info); plane++) {
    gsize row = shared_row_bytes (&info, plane);
    const char *comma = plane > 0 ? "," : "";

    g_string_append_printf (strides, "%s%" G_GSIZE_FORMAT, comma, row);
    g_string_append_printf (offsets, "%s%" G_GSIZE_FORMAT, comma, at);
    at += row * GST_VIDEO_INFO_HEIGHT (&info);
  }
  printf ("plane-strides=<%s> plane-offsets=<%s> frame-size=%" G_GSIZE_FORMAT
      "\n", strides->str, offsets->str, at);
  g_string_free (strides, TRUE);
  g_string_free (offsets, TRUE);
  return 0;
}

/* --- layouts --- */

static gboolean
read_layout (char *line, struct layout *layout)
{
  char *word;
  int got = 0;

  if (sscanf (line, "%15s %7s%n", layout->name, layout->flags, &got) != 2)
    return FALSE;
  layout->count = 0;
  for (word = strtok (line + got, " \n"); word != NULL && layout->count < 4;
      word = strtok (NULL, " \n")) {
    struct component *c = &layout->components[layout->count++];

    if (sscanf (word, "%d,%d,%d,%d,%d", &c->plane, &c->step, &c->offset,
            &c->shift, &c->depth) != 5)
      return FALSE;
  }
  return TRUE;
}

/* The code of a component as sws defines it. */
static guint
code_of (const struct layout *layout, const struct component *c,
    const guint8 * row, int x)
{
  gboolean is_big = strchr (layout->flags, 'B') != NULL;
  const guint8 *at = row + x * c->step + c->offset;
  guint number;

  if (c->shift + c->depth <= 8)
    number = at[is_big];
  else
    number = is_big ? at[0] * 256 + at[1] : at[0] + at[1] * 256;
  return (number >> c->shift) & ((1u << c->depth) - 1);
}

/* The code of a channel, 0 for alpha, as GStreamer unpacked it. */
static guint
unpacked_code (const GstVideoFormatInfo * info, const void *pixels, int x,
    int channel, int depth)
{
  if (info->unpack_format == GST_VIDEO_FORMAT_ARGB64 ||
      info->unpack_format == GST_VIDEO_FORMAT_AYUV64)
    return ((const guint16 *) pixels)[x * CHANNELS + channel] >> (16 - depth);
  return ((const guint8 *) pixels)[x * CHANNELS + channel] >> (8 - depth);
}

/* Compares the codes of a row of pixels of any bytes. */
static void
compare_layout (const struct layout *layout, GstVideoFormat format)
{
  const GstVideoFormatInfo *finfo = gst_video_format_get_info (format);
  gboolean has_alpha = strchr (layout->flags, 'A') != NULL;
  guint16 pixels[PIXELS * CHANNELS];
  guint8 bytes[4][PIXELS * 8];
  gpointer planes[4] = { bytes[0], bytes[1], bytes[2], bytes[3] };
  gint strides[4] = { PIXELS * 8, PIXELS * 8, PIXELS * 8, PIXELS * 8 };
  guint8 *byte;
  int x, c;

  if (has_alpha != !!GST_VIDEO_FORMAT_INFO_HAS_ALPHA (finfo) ||
      (strchr (layout->flags, 'R') != NULL) !=
      !!GST_VIDEO_FORMAT_INFO_IS_RGB (finfo) ||
      layout->count != (int) GST_VIDEO_FORMAT_INFO_N_COMPONENTS (finfo))
    fail ("other components", layout->name);
  for (byte = bytes[0]; byte < bytes[0] + sizeof bytes; byte++)
    *byte = (guint8) (rand () >> 7);
  finfo->unpack_func (finfo, GST_VIDEO_PACK_FLAG_NONE, pixels,
      planes, strides, 0, 0, PIXELS);
  for (c = 0; c < layout->count; c++) {
    const struct component *component = &layout->components[c];
    int channel = has_alpha && c == layout->count - 1 ? 0 : c + 1;

    for (x = 0; x < PIXELS; x++)
      if (code_of (layout, component, bytes[component->plane], x) !=
          unpacked_code (finfo, pixels, x, channel, component->depth))
        fail ("GStreamer reads another code", layout->name);
  }
}

static int
compare_layouts (void)
{
  char line[256];
  struct layout layout;
  gsize i, found = 0;

  while (fgets (line, sizeof line, stdin) != NULL) {
    if (!read_layout (line, &layout))
      fail ("not a line of the list", line);
    for (i = 0; i < G_N_ELEMENTS (shared_formats); i++)
      if (strcmp (layout.name, shared_formats[i].name) == 0) {
        compare_layout (&layout, shared_formats[i].format);
        found++;
      }
  }
  if (found != G_N_ELEMENTS (shared_formats))
    fail ("formats are missing", "the list of sws");
  printf ("%u formats are read alike by both sides\n", (unsigned) found);
  return 0;
}

int
main (int count, char **arguments)
{
  gst_init (NULL, NULL);
  if (count == 2 && strcmp (arguments[1], "table") == 0)
    return print_table ();
  if (count == 2 && strcmp (arguments[1], "layouts") == 0)
    return compare_layouts ();
  if (count >= 4 && strcmp (arguments[1], "strip") == 0)
    return strip (count - 4, arguments + 4, arguments + 2);
  if (count == 5 && strcmp (arguments[1], "planes") == 0)
    return print_planes (info_of (arguments[4], arguments + 2));
  fail ("usage", "see the head of frames.c");
  return 1;
}
