/* The formats that GStreamer and sws both know: GStreamer's, and the name of sws.
 *
 * Both lay a pixel out in the same bytes and bits; bits that hold nothing (the x of RGBx, the top bit of RGB15, those above the
 * depth of Y444_10LE) may be anything in a source, and are 0 in a target. check.sh holds each pair against GStreamer's own
 * reading of it. Left out for that: v308 and IYU2 (other orders of bytes than vyu444), ARGB64 and ABGR64 (sws has alpha last),
 * RGB10A2_LE and BGR10A2_LE (two bits of alpha, where x2rgb10le has none), Y410, Y412, GRAY10_LE32, RGBP, BGRP, and RGB8P.
 */
#ifndef SWS_FORMATS_H
#define SWS_FORMATS_H

#include <gst/video/video.h>

#if G_BYTE_ORDER == G_LITTLE_ENDIAN
#define NATIVE(name) name "le"
#else
#define NATIVE(name) name "be"
#endif

static const struct shared_format
{
  GstVideoFormat format;
  const gchar *name;
} shared_formats[] = {
  {GST_VIDEO_FORMAT_GRAY8, "gray"},
  {GST_VIDEO_FORMAT_GRAY16_LE, "gray16le"},
  {GST_VIDEO_FORMAT_GRAY16_BE, "gray16be"},
  {GST_VIDEO_FORMAT_RGB, "rgb24"},
  {GST_VIDEO_FORMAT_BGR, "bgr24"},
  {GST_VIDEO_FORMAT_RGBx, "rgb0"},
  {GST_VIDEO_FORMAT_BGRx, "bgr0"},
  {GST_VIDEO_FORMAT_xRGB, "0rgb"},
  {GST_VIDEO_FORMAT_xBGR, "0bgr"},
  {GST_VIDEO_FORMAT_RGBA, "rgba"},
  {GST_VIDEO_FORMAT_BGRA, "bgra"},
  {GST_VIDEO_FORMAT_ARGB, "argb"},
  {GST_VIDEO_FORMAT_ABGR, "abgr"},
  {GST_VIDEO_FORMAT_RGB16, NATIVE ("rgb565")},
  {GST_VIDEO_FORMAT_BGR16, NATIVE ("bgr565")},
  {GST_VIDEO_FORMAT_RGB15, NATIVE ("rgb555")},
  {GST_VIDEO_FORMAT_BGR15, NATIVE ("bgr555")},
  {GST_VIDEO_FORMAT_r210, "x2rgb10be"},
  {GST_VIDEO_FORMAT_RGBA64_LE, "rgba64le"},
  {GST_VIDEO_FORMAT_RGBA64_BE, "rgba64be"},
  {GST_VIDEO_FORMAT_BGRA64_LE, "bgra64le"},
  {GST_VIDEO_FORMAT_BGRA64_BE, "bgra64be"},
  {GST_VIDEO_FORMAT_GBR, "gbrp"},
  {GST_VIDEO_FORMAT_GBR_10LE, "gbrp10le"},
  {GST_VIDEO_FORMAT_GBR_10BE, "gbrp10be"},
  {GST_VIDEO_FORMAT_GBR_12LE, "gbrp12le"},
  {GST_VIDEO_FORMAT_GBR_12BE, "gbrp12be"},
  {GST_VIDEO_FORMAT_GBRA, "gbrap"},
  {GST_VIDEO_FORMAT_GBRA_10LE, "gbrap10le"},
  {GST_VIDEO_FORMAT_GBRA_10BE, "gbrap10be"},
  {GST_VIDEO_FORMAT_GBRA_12LE, "gbrap12le"},
  {GST_VIDEO_FORMAT_GBRA_12BE, "gbrap12be"},
  {GST_VIDEO_FORMAT_Y444, "yuv444p"},
  {GST_VIDEO_FORMAT_Y444_10LE, "yuv444p10le"},
  {GST_VIDEO_FORMAT_Y444_10BE, "yuv444p10be"},
  {GST_VIDEO_FORMAT_Y444_12LE, "yuv444p12le"},
  {GST_VIDEO_FORMAT_Y444_12BE, "yuv444p12be"},
  {GST_VIDEO_FORMAT_Y444_16LE, "yuv444p16le"},
  {GST_VIDEO_FORMAT_Y444_16BE, "yuv444p16be"},
  {GST_VIDEO_FORMAT_A444_10LE, "yuva444p10le"},
  {GST_VIDEO_FORMAT_A444_10BE, "yuva444p10be"},
  {GST_VIDEO_FORMAT_NV24, "nv24"},
  {GST_VIDEO_FORMAT_AYUV, "ayuv"},
  {GST_VIDEO_FORMAT_VUYA, "vuya"},
  {GST_VIDEO_FORMAT_AYUV64, NATIVE ("ayuv64")},
};

#undef NATIVE

/* The name of sws for a format, or NULL. */
static inline const gchar *
shared_name (GstVideoFormat format)
{
  gsize i;

  for (i = 0; i < G_N_ELEMENTS (shared_formats); i++)
    if (shared_formats[i].format == format)
      return shared_formats[i].name;
  return NULL;
}

/* The bytes of a row of a plane, without what stands between rows. */
static inline gsize
shared_row_bytes (const GstVideoInfo * info, guint plane)
{
  guint i;

  for (i = 0; i < GST_VIDEO_INFO_N_COMPONENTS (info); i++)
    if (GST_VIDEO_INFO_COMP_PLANE (info, i) == plane)
      return (gsize) GST_VIDEO_INFO_WIDTH (info) *
          GST_VIDEO_INFO_COMP_PSTRIDE (info, i);
  return 0;
}

#endif
