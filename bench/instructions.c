/*
 * Counts the instructions that one order takes by the run writers, also with a
 * pause every 16 orders, by the plain loop and in a walk without a target, with
 * callgrind: a stream of many equal orders less a stream of half as many,
 * divided by the difference.
 * The rows have 1024 pixels. `bench/run instructions` builds it, runs it under
 * valgrind and prints the table.
 */
#include "nulambiro.h"
#include <stdio.h>
#include <stdlib.h>
#include <valgrind/callgrind.h>

enum { WIDTH = 1024, HEIGHT = 1024, MANY = 64, LONGEST = 1000 };

/* How an order is written: its header with the length in two bytes, or, for
 * headers from F9 on, alone; the pixels that stand behind it, and whether it
 * has masks. A length that fits is put into the header. */
typedef struct {
  const char *name;
  uint8_t regular;
  uint8_t most;
  uint8_t unit;
  uint8_t mega_mega;
  enum { NOTHING, ONE_PIXEL, TWO_PIXELS, ALL_PIXELS, MASKS, PIXEL_AND_MASKS } operands;
} order;

static const order ORDERS[] = {
    {"background", 0x00, 31, 1, 0xF0, NOTHING},
    {"foreground", 0x20, 31, 1, 0xF1, NOTHING},
    {"color run", 0x60, 31, 1, 0xF3, ONE_PIXEL},
    {"color image", 0x80, 31, 1, 0xF4, ALL_PIXELS},
    {"set-foreground run", 0xC0, 15, 1, 0xF6, ONE_PIXEL},
    {"fg/bg image", 0x40, 31, 8, 0xF2, MASKS},
    {"set-foreground fg/bg image", 0xD0, 15, 8, 0xF7, PIXEL_AND_MASKS},
    {"dithered, pairs", 0xE0, 15, 1, 0xF8, TWO_PIXELS},
    {"F9", 0, 0, 0, 0xF9, NOTHING},
    {"white", 0, 0, 0, 0xFD, NOTHING},
};

static const size_t LENGTHS[] = {1, 4, 16, 64, LONGEST};

/* Writes an order of n pixels of d bytes; returns the stream's new length. */
static size_t put_order(uint8_t *s, size_t at, const order *o, size_t n, size_t d) {
  size_t bytes = 0, i;
  if (o->mega_mega >= 0xF9) {
    s[at++] = o->mega_mega;
    return at;
  }
  if (n % o->unit == 0 && n / o->unit <= o->most) {
    s[at++] = (uint8_t)(o->regular + n / o->unit);
  } else {
    s[at++] = o->mega_mega;
    s[at++] = (uint8_t)n;
    s[at++] = (uint8_t)(n >> 8);
  }
  switch (o->operands) {
  case NOTHING: break;
  case ONE_PIXEL: bytes = d; break;
  case TWO_PIXELS: bytes = 2 * d; break;
  case ALL_PIXELS: bytes = n * d; break;
  case MASKS: bytes = (n + 7) / 8; break;
  case PIXEL_AND_MASKS: bytes = d + (n + 7) / 8; break;
  }
  for (i = 0; i < bytes; i++)
    s[at++] = (uint8_t)(37 * i + 11);
  return at;
}

static uint8_t stream[(MANY + 1) * (LONGEST * 3 + 16)];
static uint8_t target[WIDTH * HEIGHT * 3];

/* From libplain_library.a: returns the pixels painted. */
size_t nulambiro_plain_decompress(const uint8_t *src, size_t src_len, uint8_t *dst, size_t dst_len,
                                  size_t width, size_t height, size_t bpp);

static size_t by_run_writers(const uint8_t *src, size_t src_len, uint8_t *dst, size_t dst_len,
                             size_t width, size_t height, size_t bpp) {
  uint64_t report[NULAMBIRO_REPORT_PLACES];
  nulambiro_decompress(src, src_len, dst, dst_len, width, height, bpp, report);
  return report[NULAMBIRO_PIXELS];
}

/* Pauses every 16 orders. */
static size_t by_pauses(const uint8_t *src, size_t src_len, uint8_t *dst, size_t dst_len,
                        size_t width, size_t height, size_t bpp) {
  uint64_t state[NULAMBIRO_STATE_PLACES], report[NULAMBIRO_REPORT_PLACES];
  nulambiro_start(bpp, state);
  do {
    nulambiro_decompress_some(src, src_len, dst, dst_len, width, height, bpp, 16, state, report);
  } while (!report[NULAMBIRO_FORMAT] && !report[NULAMBIRO_REFUSAL]);
  return report[NULAMBIRO_PIXELS];
}

/* Looks for an order that no stream has, so goes over all of them. */
static size_t by_walk(const uint8_t *src, size_t src_len, uint8_t *dst, size_t dst_len,
                      size_t width, size_t height, size_t bpp) {
  uint64_t report[NULAMBIRO_REPORT_PLACES];
  (void)dst, (void)dst_len;
  nulambiro_order_record(src, src_len, width, height, bpp, SIZE_MAX, report);
  return report[NULAMBIRO_RECORD_FOUND];
}

/* What goes over the orders, and whether it returns the pixels painted or 0. */
typedef struct {
  const char *name;
  size_t (*decode)(const uint8_t *, size_t, uint8_t *, size_t, size_t, size_t, size_t);
  int paints;
} decoder;

static const decoder DECODERS[] = {
    {"run writers", by_run_writers, 1},
    {"pauses of 16", by_pauses, 1},
    {"plain loop", nulambiro_plain_decompress, 1},
    {"walk", by_walk, 0},
};

/* How many pixels an order paints. */
static size_t pixels_of(const order *o, size_t n) {
  return o->mega_mega == 0xF9 ? 8 : o->operands == TWO_PIXELS ? 2 * n : n;
}

/* Decodes `count` orders, in the first row or behind it, and has callgrind
 * write down the instructions. */
static void count_orders(const decoder *by, const order *o, size_t n, size_t bpp, int later,
                         size_t count) {
  static const order FIRST = {"", 0x60, 31, 1, 0xF3, ONE_PIXEL};
  size_t d = (bpp + 7) / 8, length = 0, due = count * pixels_of(o, n), painted, i;
  /* Without a row behind it the first row is as long as all orders. */
  size_t width = later ? WIDTH : 8192, height = later ? HEIGHT : 128;
  char label[80];
  if (later) {
    length = put_order(stream, length, &FIRST, WIDTH, d);
    due += WIDTH;
  }
  for (i = 0; i < count; i++)
    length = put_order(stream, length, o, n, d);
  CALLGRIND_ZERO_STATS;
  CALLGRIND_TOGGLE_COLLECT;
  painted = by->decode(stream, length, target, sizeof target, width, height, bpp);
  CALLGRIND_TOGGLE_COLLECT;
  if (!by->paints)
    due = 0;
  if (painted != due) {
    fprintf(stderr, "%s, %s of %zu: %zu pixels for %zu\n", by->name, o->name, n, painted, due);
    exit(1);
  }
  snprintf(label, sizeof label, "%zu;%s;%s;%s;%zu;%zu", bpp, later ? "later" : "first", o->name, by->name, n,
           count);
  CALLGRIND_DUMP_STATS_AT(label);
}

/* Counts an order of each length. */
static void count_lengths(const decoder *by, const order *o, size_t bpp, int later) {
  /* White, black, F9 and FA have no length. */
  size_t lengths = o->mega_mega >= 0xF9 ? 1 : sizeof LENGTHS / sizeof LENGTHS[0], l;
  for (l = 0; l < lengths; l++) {
    size_t n = LENGTHS[l];
    /* In the first row, what it has room for. */
    size_t many = later ? MANY : 8192 / (2 * n) < MANY ? 8192 / (2 * n) : MANY;
    count_orders(by, o, n, bpp, later, many);
    count_orders(by, o, n, bpp, later, many / 2);
  }
}

int main(void) {
  static const size_t DEPTHS[] = {8, 16, 24};
  size_t b, o, by;
  int later;
  for (later = 1; later >= 0; later--)
    for (b = 0; b < 3; b++)
      for (o = 0; o < sizeof ORDERS / sizeof ORDERS[0]; o++)
        for (by = 0; by < sizeof DECODERS / sizeof DECODERS[0]; by++)
          count_lengths(&DECODERS[by], &ORDERS[o], DEPTHS[b], later);
  return 0;
}
