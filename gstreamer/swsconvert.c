/* swsconvert: converts raw video between formats without chroma subsampling, exactly, by the C library of sws.
 *
 * gst-launch-1.0 videotestsrc ! video/x-raw,format=RGB ! swsconvert ! video/x-raw,format=Y444 ! fakesink
 */
#include <gst/gst.h>
#include <gst/video/video.h>
#include <gst/video/gstvideofilter.h>
#include <string.h>
#include <sws.h>

#include "formats.h"

GST_DEBUG_CATEGORY_STATIC (sws_convert_debug);
#define GST_CAT_DEFAULT sws_convert_debug

#define LARGEST_SIDE 16384
#define LARGEST_DITHER 4

#define SWS_TYPE_CONVERT (sws_convert_get_type ())
G_DECLARE_FINAL_TYPE (SwsConvert, sws_convert, SWS, CONVERT, GstVideoFilter)

struct _SwsConvert
{
  GstVideoFilter parent;

  guint dither;

  /* made when the caps are known, and used for every frame */
  struct sws_plan plan;
};

enum
{
  PROP_0,
  PROP_DITHER
};

G_DEFINE_TYPE (SwsConvert, sws_convert, GST_TYPE_VIDEO_FILTER)

/* --- caps --- */

/* What both pads take. */
static GstCaps *
pad_caps (void)
{
  GValue formats = G_VALUE_INIT, format = G_VALUE_INIT;
  GstCaps *caps;
  gsize i;

  g_value_init (&formats, GST_TYPE_LIST);
  g_value_init (&format, G_TYPE_STRING);
  for (i = 0; i < G_N_ELEMENTS (shared_formats); i++) {
    g_value_set_static_string (&format,
        gst_video_format_to_string (shared_formats[i].format));
    gst_value_list_append_value (&formats, &format);
  }
  caps = gst_caps_new_simple ("video/x-raw",
      "width", GST_TYPE_INT_RANGE, 1, LARGEST_SIDE,
      "height", GST_TYPE_INT_RANGE, 1, LARGEST_SIDE,
      "framerate", GST_TYPE_FRACTION_RANGE, 0, 1, G_MAXINT, 1, NULL);
  gst_caps_set_value (caps, "format", &formats);
  g_value_unset (&format);
  g_value_unset (&formats);
  return caps;
}

/* The other pad has the same frames in any format and colorimetry. */
static GstCaps *
sws_convert_transform_caps (GstBaseTransform * trans,
    GstPadDirection direction, GstCaps * caps, GstCaps * filter)
{
  GstCaps *other = gst_caps_new_empty (), *kept;
  guint i;

  for (i = 0; i < gst_caps_get_size (caps); i++) {
    GstStructure *structure =
        gst_structure_copy (gst_caps_get_structure (caps, i));

    gst_structure_remove_fields (structure, "format", "colorimetry",
        "chroma-site", NULL);
    other = gst_caps_merge_structure_full (other, structure,
        gst_caps_features_copy (gst_caps_get_features (caps, i)));
  }
  if (filter == NULL)
    return other;
  kept = gst_caps_intersect_full (filter, other, GST_CAPS_INTERSECT_FIRST);
  gst_caps_unref (other);
  return kept;
}

/* What a conversion loses: colour, then depth, then alpha, then exactness; and, least of all, what it adds. */
static guint
loss_of (const GstVideoFormatInfo * from, const GstVideoFormatInfo * to)
{
  gboolean is_gray = GST_VIDEO_FORMAT_INFO_IS_GRAY (from);
  gboolean becomes_gray = GST_VIDEO_FORMAT_INFO_IS_GRAY (to);
  gboolean is_rgb = GST_VIDEO_FORMAT_INFO_IS_RGB (from);
  gboolean becomes_rgb = GST_VIDEO_FORMAT_INFO_IS_RGB (to);
  gboolean has_alpha = GST_VIDEO_FORMAT_INFO_HAS_ALPHA (from);
  gboolean gets_alpha = GST_VIDEO_FORMAT_INFO_HAS_ALPHA (to);
  /* the second component: RGB16 has a bit more of green */
  guint depth = GST_VIDEO_FORMAT_INFO_DEPTH (from, is_gray ? 0 : 1);
  guint gets_depth = GST_VIDEO_FORMAT_INFO_DEPTH (to, becomes_gray ? 0 : 1);

  return (!is_gray && becomes_gray) * 4096 +
      (gets_depth < depth ? (depth - gets_depth) * 128 : 0) +
      (has_alpha && !gets_alpha) * 64 + (is_rgb != becomes_rgb) * 32 +
      (is_gray && !becomes_gray) * 16 + (!has_alpha && gets_alpha) * 8 +
      (gets_depth > depth ? (gets_depth - depth) / 2 : 0);
}

/* Compares the format of a value with the best one so far, and keeps the better of the two. */
static void
keep_better (const GstVideoFormatInfo * from, const GValue * value,
    const GstVideoFormatInfo ** best)
{
  const GstVideoFormatInfo *to;

  if (!G_VALUE_HOLDS_STRING (value))
    return;
  to = gst_video_format_get_info (gst_video_format_from_string
      (g_value_get_string (value)));
  if (to != NULL && shared_name (GST_VIDEO_FORMAT_INFO_FORMAT (to)) != NULL &&
      (*best == NULL || loss_of (from, to) < loss_of (from, *best)))
    *best = to;
}

/* Sets the format that loses least. */
static void
choose_format (const GstVideoInfo * from, GstStructure * to)
{
  const GValue *formats = gst_structure_get_value (to, "format");
  const GstVideoFormatInfo *best = NULL;
  guint i;

  if (formats == NULL)
    return;
  if (GST_VALUE_HOLDS_LIST (formats)) {
    for (i = 0; i < gst_value_list_get_size (formats); i++)
      keep_better (from->finfo, gst_value_list_get_value (formats, i), &best);
  } else {
    keep_better (from->finfo, formats, &best);
  }
  if (best != NULL)
    gst_structure_set (to, "format", G_TYPE_STRING,
        GST_VIDEO_FORMAT_INFO_NAME (best), NULL);
}

/* Sets the colorimetry where the caps leave it open: what the conversion does not change (transfer and primaries) is the other
 * side's, and so are the matrix between two sides that are not RGB, and the range between two of one kind. */
static GstCaps *
choose_colorimetry (const GstVideoInfo * from, GstCaps * to)
{
  GstVideoColorimetry chosen;
  GstVideoInfo info;
  gchar *text;

  if (gst_structure_has_field (gst_caps_get_structure (to, 0), "colorimetry")
      || !gst_video_info_from_caps (&info, to))
    return to;
  chosen = info.colorimetry;
  chosen.transfer = from->colorimetry.transfer;
  chosen.primaries = from->colorimetry.primaries;
  if (!GST_VIDEO_INFO_IS_RGB (&info) && !GST_VIDEO_INFO_IS_RGB (from))
    chosen.matrix = from->colorimetry.matrix;
  if (GST_VIDEO_INFO_IS_RGB (&info) == GST_VIDEO_INFO_IS_RGB (from) &&
      GST_VIDEO_INFO_IS_GRAY (&info) == GST_VIDEO_INFO_IS_GRAY (from))
    chosen.range = from->colorimetry.range;
  text = gst_video_colorimetry_to_string (&chosen);
  if (text != NULL) {
    to = gst_caps_make_writable (to);
    gst_caps_set_simple (to, "colorimetry", G_TYPE_STRING, text, NULL);
    g_free (text);
  }
  return to;
}

/* The same caps where they are possible, so that frames pass untouched; else the format that loses least. */
static GstCaps *
sws_convert_fixate_caps (GstBaseTransform * trans, GstPadDirection direction,
    GstCaps * caps, GstCaps * other)
{
  GstVideoInfo from;

  if (gst_caps_can_intersect (caps, other)) {
    GstCaps *same = gst_caps_intersect (caps, other);

    gst_caps_unref (other);
    return gst_caps_fixate (same);
  }
  if (!gst_video_info_from_caps (&from, caps))
    return gst_caps_fixate (other);
  other = gst_caps_make_writable (gst_caps_truncate (other));
  choose_format (&from, gst_caps_get_structure (other, 0));
  return choose_colorimetry (&from, gst_caps_fixate (other));
}

/* --- the plan of two caps --- */

static void
release (SwsConvert * self)
{
  sws_close (&self->plan);
}

/* The name of a matrix; bt601, the default of sws, where it is not known. */
static const gchar *
matrix_name (GstVideoColorMatrix matrix)
{
  switch (matrix) {
    case GST_VIDEO_COLOR_MATRIX_FCC:
      return "fcc";
    case GST_VIDEO_COLOR_MATRIX_BT709:
      return "bt709";
    case GST_VIDEO_COLOR_MATRIX_SMPTE240M:
      return "smpte240m";
    case GST_VIDEO_COLOR_MATRIX_BT2020:
      return "bt2020";
    default:
      return "bt601";
  }
}

/* Sets matrix and range of a side. A range that is not known stays that of sws_open, the default of sws for the format. There is
 * no RGB of limited range in sws. */
static gboolean
set_side (SwsConvert * self, struct sws_side *side, const GstVideoInfo * info)
{
  if (info->colorimetry.range == GST_VIDEO_COLOR_RANGE_0_255)
    side->range = SWS_FULL;
  else if (info->colorimetry.range == GST_VIDEO_COLOR_RANGE_16_235)
    side->range = SWS_LIMITED;
  if (GST_VIDEO_INFO_IS_RGB (info) && side->range == SWS_LIMITED) {
    GST_ELEMENT_ERROR (self, STREAM, FORMAT, (NULL),
        ("RGB of limited range is not converted"));
    return FALSE;
  }
  return sws_set_matrix (side, matrix_name (info->colorimetry.matrix)) ==
      SWS_OK;
}

/* Whether the archive has rows of the same length as GStreamer. */
static gboolean
has_same_rows (guint32 format, const GstVideoInfo * info)
{
  guint64 row_bytes, shared = 0;
  guint plane;

  for (plane = 0; plane < GST_VIDEO_INFO_N_PLANES (info); plane++)
    shared += shared_row_bytes (info, plane);
  return sws_bytes (format, GST_VIDEO_INFO_WIDTH (info), 1,
      &row_bytes) == SWS_OK && row_bytes == shared;
}

static gboolean
sws_convert_set_info (GstVideoFilter * filter, GstCaps * in_caps,
    GstVideoInfo * in, GstCaps * out_caps, GstVideoInfo * out)
{
  SwsConvert *self = SWS_CONVERT (filter);
  struct sws_conversion conversion;
  guint32 status;

  release (self);
  if (gst_caps_is_equal (in_caps, out_caps))
    return TRUE;                /* frames pass untouched */

  status = sws_open (&conversion, shared_name (GST_VIDEO_INFO_FORMAT (in)),
      shared_name (GST_VIDEO_INFO_FORMAT (out)));
  if (status == SWS_OK) {
    if (!set_side (self, &conversion.from, in) ||
        !set_side (self, &conversion.to, out))
      return FALSE;
    conversion.dither = self->dither;
    status = sws_make (&conversion, &self->plan);
  }
  if (status != SWS_OK) {
    GST_ELEMENT_ERROR (self, LIBRARY, SETTINGS, (NULL),
        ("no plan: %s", sws_text (status)));
    return FALSE;
  }
  if (!has_same_rows (conversion.from.format, in) ||
      !has_same_rows (conversion.to.format, out)) {
    GST_ELEMENT_ERROR (self, LIBRARY, SETTINGS, (NULL),
        ("rows of another length"));
    return FALSE;
  }
  return TRUE;
}

static gboolean
sws_convert_stop (GstBaseTransform * trans)
{
  release (SWS_CONVERT (trans));
  return TRUE;
}

/* --- frames --- */

/* The bytes of a plane, from its first row to the end of its last. */
static gsize
plane_length (const GstVideoFrame * frame, guint plane)
{
  return (gsize) GST_VIDEO_FRAME_PLANE_STRIDE (frame, plane) *
      (GST_VIDEO_FRAME_HEIGHT (frame) - 1) + shared_row_bytes (&frame->info, plane);
}

/* Whether the rows of each plane stand one below the other. */
static gboolean
goes_down (const GstVideoFrame * frame)
{
  guint plane;

  for (plane = 0; plane < GST_VIDEO_FRAME_N_PLANES (frame); plane++)
    if (GST_VIDEO_FRAME_PLANE_STRIDE (frame, plane) < 0)
      return FALSE;
  return TRUE;
}

static GstFlowReturn
sws_convert_transform_frame (GstVideoFilter * filter, GstVideoFrame * in,
    GstVideoFrame * out)
{
  SwsConvert *self = SWS_CONVERT (filter);
  struct sws_source_planes source = { {NULL}, {0}, {0}, NULL };
  struct sws_target_planes target = { {NULL}, {0}, {0} };
  guint32 status = SWS_INPUT_LENGTH;
  guint plane;

  if (goes_down (in) && goes_down (out)) {
    for (plane = 0; plane < GST_VIDEO_FRAME_N_PLANES (in); plane++) {
      source.bytes[plane] = GST_VIDEO_FRAME_PLANE_DATA (in, plane);
      source.stride[plane] = GST_VIDEO_FRAME_PLANE_STRIDE (in, plane);
      source.length[plane] = plane_length (in, plane);
    }
    for (plane = 0; plane < GST_VIDEO_FRAME_N_PLANES (out); plane++) {
      target.bytes[plane] = GST_VIDEO_FRAME_PLANE_DATA (out, plane);
      target.stride[plane] = GST_VIDEO_FRAME_PLANE_STRIDE (out, plane);
      target.length[plane] = plane_length (out, plane);
    }
    status = sws_run_planes (&self->plan, 0, GST_VIDEO_FRAME_WIDTH (in),
        GST_VIDEO_FRAME_HEIGHT (in), &source, &target);
  }
  if (status == SWS_OK)
    return GST_FLOW_OK;
  GST_ELEMENT_ERROR (self, LIBRARY, FAILED, (NULL),
      ("a frame: %s", sws_text (status)));
  return GST_FLOW_ERROR;
}

/* --- the element --- */

static void
sws_convert_set_property (GObject * object, guint id, const GValue * value,
    GParamSpec * spec)
{
  switch (id) {
    case PROP_DITHER:
      SWS_CONVERT (object)->dither = g_value_get_uint (value);
      break;
    default:
      G_OBJECT_WARN_INVALID_PROPERTY_ID (object, id, spec);
  }
}

static void
sws_convert_get_property (GObject * object, guint id, GValue * value,
    GParamSpec * spec)
{
  switch (id) {
    case PROP_DITHER:
      g_value_set_uint (value, SWS_CONVERT (object)->dither);
      break;
    default:
      G_OBJECT_WARN_INVALID_PROPERTY_ID (object, id, spec);
  }
}

static void
sws_convert_finalize (GObject * object)
{
  release (SWS_CONVERT (object));
  G_OBJECT_CLASS (sws_convert_parent_class)->finalize (object);
}

static void
add_pad_template (GstElementClass * element, const gchar * name,
    GstPadDirection direction, GstCaps * caps)
{
  gst_element_class_add_pad_template (element,
      gst_pad_template_new (name, direction, GST_PAD_ALWAYS, caps));
}

static void
sws_convert_class_init (SwsConvertClass * klass)
{
  GObjectClass *object = G_OBJECT_CLASS (klass);
  GstElementClass *element = GST_ELEMENT_CLASS (klass);
  GstBaseTransformClass *trans = GST_BASE_TRANSFORM_CLASS (klass);
  GstVideoFilterClass *filter = GST_VIDEO_FILTER_CLASS (klass);
  GstCaps *caps = pad_caps ();

  object->set_property = sws_convert_set_property;
  object->get_property = sws_convert_get_property;
  object->finalize = sws_convert_finalize;
  g_object_class_install_property (object, PROP_DITHER,
      g_param_spec_uint ("dither", "Dither",
          "0: rounded to the nearest, half up; "
          "1 to 4: ordered dither over squares of 2^dither pixels",
          0, LARGEST_DITHER, 0,
          G_PARAM_READWRITE | G_PARAM_STATIC_STRINGS |
          GST_PARAM_MUTABLE_READY));

  add_pad_template (element, "sink", GST_PAD_SINK, caps);
  add_pad_template (element, "src", GST_PAD_SRC, caps);
  gst_caps_unref (caps);
  gst_element_class_set_static_metadata (element, "Exact format converter",
      "Filter/Converter/Video",
      "Converts raw video without chroma subsampling exactly", "sws");

  trans->passthrough_on_same_caps = TRUE;
  trans->transform_caps = sws_convert_transform_caps;
  trans->fixate_caps = sws_convert_fixate_caps;
  trans->stop = sws_convert_stop;
  filter->set_info = sws_convert_set_info;
  filter->transform_frame = sws_convert_transform_frame;
}

static void
sws_convert_init (SwsConvert * self)
{
}

static gboolean
plugin_init (GstPlugin * plugin)
{
  GST_DEBUG_CATEGORY_INIT (sws_convert_debug, "swsconvert", 0,
      "exact format converter");
  return gst_element_register (plugin, "swsconvert", GST_RANK_NONE,
      SWS_TYPE_CONVERT);
}

#define PACKAGE "sws"
GST_PLUGIN_DEFINE (GST_VERSION_MAJOR, GST_VERSION_MINOR, swsconvert,
    "exact conversion between pixel formats", plugin_init, "0.1",
    GST_LICENSE_UNKNOWN, "sws", "sws")
