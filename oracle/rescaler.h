/* libwebp's own rescaler, which is no part of its public headers: what is declared here is that of 1.2.4. rescaler_as_declared sees that the library at hand
 * has the same. Only libwebp's archive has these names for sure. rescaler.c and speed/drive.c include this. */
#ifndef RESCALER_H
#define RESCALER_H
#include <stddef.h>
#include <stdint.h>
#include <string.h>

/* src/utils/rescaler_utils.h */
typedef struct {
  int x_expand, y_expand, num_channels;
  uint32_t fx_scale, fy_scale, fxy_scale;
  int y_accum, y_add, y_sub, x_add, x_sub;
  int src_width, src_height, dst_width, dst_height, src_y, dst_y;
  uint8_t* dst;
  int dst_stride;
  uint32_t *irow, *frow;
} WebPRescaler;
int WebPRescalerInit(WebPRescaler* rescaler, int src_width, int src_height, uint8_t* dst, int dst_width, int dst_height, int dst_stride, int num_channels,
                     uint32_t* work);
int WebPRescalerImport(WebPRescaler* rescaler, int num_rows, const uint8_t* src, int src_stride);
int WebPRescalerExport(WebPRescaler* rescaler);

/* src/dsp/dsp.h */
typedef void (*RescaleRow)(WebPRescaler* rescaler);
typedef void (*ImportRow)(WebPRescaler* rescaler, const uint8_t* src);
extern ImportRow WebPRescalerImportRowExpand, WebPRescalerImportRowShrink;
extern RescaleRow WebPRescalerExportRowExpand, WebPRescalerExportRowShrink;
void WebPRescalerImportRowExpand_C(WebPRescaler* rescaler, const uint8_t* src);
void WebPRescalerImportRowShrink_C(WebPRescaler* rescaler, const uint8_t* src);
void WebPRescalerExportRowExpand_C(WebPRescaler* rescaler);
void WebPRescalerExportRowShrink_C(WebPRescaler* rescaler);
/* NULL leaves the functions in C. */
typedef int (*CpuInfo)(int feature);
extern CpuInfo VP8GetCPUInfo;

/* With VP8GetCPUInfo NULL: every field that the declaration names has the value that it must have, nothing beyond the struct was written, and the functions are
 * those in C. */
static inline int rescaler_as_declared(void) {
  struct {
    WebPRescaler r;
    uint8_t beyond[256];
  } room;
  uint8_t dst[2 * 7 * 5] = {0};
  uint32_t work[2 * 2 * 7];
  const uint8_t src[2 * 4] = {1, 2, 3, 4, 5, 6, 7, 8};
  memset(&room, 0x5c, sizeof room);
  WebPRescaler* const r = &room.r;
  int ok = WebPRescalerInit(r, 4, 9, dst, 7, 5, 14, 2, work);
  ok = ok && r->x_expand == 1 && r->y_expand == 0 && r->num_channels == 2 && r->y_accum == 9 && r->y_add == 9 && r->y_sub == 5;
  ok = ok && r->fy_scale == 0xffffffffu / 5 && r->fxy_scale == (uint32_t)((5ull << 32) / (6 * 9)) && r->x_add == 6 && r->x_sub == 3;
  ok = ok && r->src_width == 4 && r->src_height == 9;
  ok = ok && r->dst_width == 7 && r->dst_height == 5 && r->src_y == 0 && r->dst_y == 0 && r->dst == dst && r->dst_stride == 14;
  ok = ok && r->irow == work && r->frow == work + 14;
  ok = ok && WebPRescalerImport(r, 1, src, 8) == 1 && r->src_y == 1 && r->y_accum == 4 && r->frow[0] == 6 && r->frow[13] == 8 * 6 && r->irow[0] == 6;
  ok = ok && WebPRescalerInit(r, 9, 4, dst, 5, 7, 10, 2, work) && r->x_expand == 0 && r->y_expand == 1 && r->fx_scale == 0xffffffffu / 5;
  for (size_t i = 0; i < sizeof room.beyond; ++i) ok = ok && room.beyond[i] == 0x5c;
  return ok && WebPRescalerImportRowExpand == WebPRescalerImportRowExpand_C && WebPRescalerImportRowShrink == WebPRescalerImportRowShrink_C &&
         WebPRescalerExportRowExpand == WebPRescalerExportRowExpand_C && WebPRescalerExportRowShrink == WebPRescalerExportRowShrink_C;
}

/* The whole crop of a plane, `step` bytes from row to row, in the way of libwebp's RescalePlane; 0 where it refuses. */
static inline int rescale_whole(WebPRescaler* r, int lanes, int width, int height, const uint8_t* src, size_t step, int target_width, int target_height,
                                uint8_t* out, uint32_t* work) {
  if (!WebPRescalerInit(r, width, height, out, target_width, target_height, lanes * target_width, lanes, work)) return 0;
  for (int y = 0; y < height;) {
    y += WebPRescalerImport(r, height - y, src + (size_t)y * step, (int)step);
    WebPRescalerExport(r);
  }
  return 1;
}
#endif
