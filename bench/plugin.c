/*
 * This codec behind the interface that the peers' programs load from a shared
 * library: bench/run builds it and hands it to them.
 */
#include "nulambiro.h"

/* r: refusal, first, second, pixels, orders. */
void rle_report(const uint8_t *src, size_t n, size_t w, size_t h, size_t bpp,
                uint8_t *dst, size_t dstlen, uint64_t r[5]) {
  uint64_t report[NULAMBIRO_REPORT_PLACES];
  nulambiro_decompress(src, n, dst, dstlen, w, h, bpp, report);
  r[0] = report[NULAMBIRO_REFUSAL];
  r[1] = report[NULAMBIRO_FIRST];
  r[2] = report[NULAMBIRO_SECOND];
  r[3] = report[NULAMBIRO_PIXELS];
  r[4] = report[NULAMBIRO_ORDERS];
}

/* Returns the refusal's number, 0 for none. */
long rle_decode(const uint8_t *src, size_t n, size_t w, size_t h, size_t bpp,
                uint8_t *dst, size_t dstlen) {
  uint64_t report[NULAMBIRO_REPORT_PLACES];
  nulambiro_decompress(src, n, dst, dstlen, w, h, bpp, report);
  return (long)report[NULAMBIRO_REFUSAL];
}

/* Returns the stream's length, -1 if refused. The picture is whole. */
long rle_encode(const uint8_t *px, size_t w, size_t h, size_t bpp, uint8_t *out,
                size_t cap) {
  uint64_t report[NULAMBIRO_REPORT_PLACES];
  nulambiro_compress(px, w * h * ((bpp + 7) / 8), out, cap, w, h, bpp, report);
  if (report[NULAMBIRO_REFUSAL] != NULAMBIRO_OK) {
    return -1;
  }
  return (long)report[NULAMBIRO_COMPRESS_LENGTH];
}
