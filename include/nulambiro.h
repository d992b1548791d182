/*
 * Nulambiro: a codec of interleaved RLE bitmaps, the compressed rectangles of
 * the Remote Desktop Protocol (MS-RDPBCGR 2.2.9.1.1.3.1.2.4 and 3.1.9): a
 * decoder, an encoder, a look at a stream's orders, and what is needed between
 * decoded pixels and a screen.
 *
 * The library is one archive, libnulambiro.a, for x86-64. It has no state:
 * calls from several threads need no lock, as long as each has its own target
 * or output, state, walk and report.
 */
#ifndef NULAMBIRO_H
#define NULAMBIRO_H

#include <stddef.h>
#include <stdint.h>

#ifdef __cplusplus
extern "C" {
#endif

/* The most pixels that one side of a picture may have. */
#define NULAMBIRO_MAX_SIDE 8192

/* A stream paints at most this many pixels for each of its bytes. */
#define NULAMBIRO_MAX_PIXELS_PER_BYTE 26214

/* Places in the reports of nulambiro_decompress and
 * nulambiro_decompress_some. */
enum {
  /* Bits per pixel of the decoded picture, 8, 15, 16 or 24; 0 if refused, or if
   * decoding is paused. */
  NULAMBIRO_FORMAT = 0,
  /* One of the refusal numbers below; 0 if the stream was decoded, or if
   * decoding is paused. */
  NULAMBIRO_REFUSAL = 1,
  /* Two numbers that belong to the refusal; 0 where it names none. */
  NULAMBIRO_FIRST = 2,
  NULAMBIRO_SECOND = 3,
  /* Pixels painted, also those before a refusal. */
  NULAMBIRO_PIXELS = 4,
  /* Orders whose last pixel was painted. */
  NULAMBIRO_ORDERS = 5,
  /* Places 6 and 7 are always 0. */
  NULAMBIRO_REPORT_PLACES = 8
};

/*
 * Refusal numbers, and what NULAMBIRO_FIRST and NULAMBIRO_SECOND hold. The
 * first four are tested in the order of their numbers, before the stream is
 * read: they change no byte of the target, and both counts are 0. 5 to 8 come
 * from the stream: the pixels painted before them stay. The encoder, which
 * reads no stream, answers 1 to 4 and 14. 15 is of nulambiro_decompress_some
 * alone, which tests it between 4 and the stream.
 *
 * Inside an order its length is tested first (6 or 8), then the pixels that it
 * reads (6), then the space for all that it paints (7), and then it paints. A
 * foreground/background image tests each of its masks instead (6, then 7) and
 * paints before it reads the next one.
 */
enum {
  NULAMBIRO_OK = 0,
  /* bpp is none of 8, 15, 16 and 24. First: bpp. */
  NULAMBIRO_INVALID_BPP = 1,
  /* width or height is 0. */
  NULAMBIRO_EMPTY_IMAGE = 2,
  /* A side is above NULAMBIRO_MAX_SIDE. First: width. Second: height. */
  NULAMBIRO_DIMENSIONS_TOO_LARGE = 3,
  /* The target is shorter than the picture; in nulambiro_compress, the pixel
   * buffer is. First: bytes needed. Second: bytes given (dst_len, src_len). */
  NULAMBIRO_BUFFER_TOO_SHORT = 4,
  /* A header byte is no order: A0 to BF, F5, FB, FC or FF. */
  NULAMBIRO_BAD_ORDER_CODE = 5,
  /* The stream ends inside an order. First: bytes that the order reads next.
   * Second: bytes left in the stream. */
  NULAMBIRO_NOT_ENOUGH_BYTES = 6,
  /* An order goes past the end of the picture. First: bytes left in the
   * picture. Second: bytes that the order, or the next mask of its image,
   * would write. */
  NULAMBIRO_INVALID_IMAGE_SIZE = 7,
  /* A run length of two bytes is 0. */
  NULAMBIRO_UNEXPECTED_ZERO_LENGTH = 8,
  /* The stream that is to be written is longer than the output. */
  NULAMBIRO_OUTPUT_TOO_SHORT = 14,
  /* The state is none of this stream and this picture. */
  NULAMBIRO_BAD_STATE = 15
};

/*
 * Decodes the stream src of src_len bytes into the target dst of dst_len
 * bytes, and writes what came out to report.
 *
 * The picture has width * height pixels of D bytes each and takes the first
 * width * height * D bytes of the target. D is 1 at 8 bits per pixel (bpp), 2
 * at 15 and 16, and 3 at 24. The picture's rows follow each other without
 * gaps, in the order of the stream; in the protocol the first one is the
 * lowest on the screen. A pixel's low byte comes first. At 8 bpp a pixel is an
 * index into a palette; at 15 bpp the top bit is kept as the stream has it.
 *
 * The end of the stream between two orders is no error, however few pixels
 * have been painted: compare report[NULAMBIRO_PIXELS] with width * height to
 * know whether the picture is whole.
 *
 * What holds after every call, whatever the stream and the numbers are:
 * - The first report[NULAMBIRO_PIXELS] * D bytes of the target are the
 *   painted pixels. They depend on the stream, width, height and bpp alone,
 *   never on what the target held before.
 * - All later bytes of the target are as they were before the call, up to
 *   dst_len. Refusals 1 to 4 paint nothing, so they change no byte.
 * - Nothing outside the target and the report is written, nothing outside
 *   the stream and the target is read, and no memory is allocated.
 * - Orders <= pixels <= NULAMBIRO_MAX_PIXELS_PER_BYTE * src_len, and
 *   pixels <= width * height.
 *
 * What the caller must provide:
 * - src must be readable for src_len bytes, dst readable and writable for
 *   dst_len bytes. Either may be a null pointer if its length is 0.
 * - report must have NULAMBIRO_REPORT_PLACES elements, so it is never null.
 *   Their old values do not matter; all of them are written.
 * - src, dst and report must not overlap.
 * Nothing is required of width, height and bpp: bad values are refused.
 */
void nulambiro_decompress(const uint8_t *src, size_t src_len, uint8_t *dst,
                          size_t dst_len, size_t width, size_t height,
                          size_t bpp, uint64_t report[NULAMBIRO_REPORT_PLACES]);

/* Places of a state, in which decoding pauses between two orders. */
enum {
  /* Bytes of the stream that are read. */
  NULAMBIRO_STATE_BYTES = 0,
  /* Pixels that are painted. */
  NULAMBIRO_STATE_PIXELS = 1,
  /* The foreground: its low byte + 256 * its middle byte + 65536 * its high
   * byte. Bytes that the depth does not use are 0. */
  NULAMBIRO_STATE_FOREGROUND = 2,
  /* 1 if the last order was a background run, so that an insert is pending;
   * else 0. */
  NULAMBIRO_STATE_INSERT = 3,
  /* 0 once an order has begun with the first row painted; else 1. */
  NULAMBIRO_STATE_FIRST_ROW = 4,
  /* Orders completed. */
  NULAMBIRO_STATE_ORDERS = 5,
  /* Places 6 and 7 are 0. */
  NULAMBIRO_STATE_PLACES = 8
};

/*
 * Writes to state where every stream of so many bits per pixel starts: nothing
 * is read or painted, the foreground is white, no insert is pending, and the
 * first row has not ended. Where bpp is none of 8, 15, 16 and 24, which
 * nulambiro_decompress_some refuses, the foreground is 0.
 *
 * state must have NULAMBIRO_STATE_PLACES elements; all of them are written.
 */
void nulambiro_start(size_t bpp, uint64_t state[NULAMBIRO_STATE_PLACES]);

/*
 * Decodes as nulambiro_decompress does, but from state on, and at most limit
 * orders. What came out is written to report. It is one of three:
 * - Decoding is paused, NULAMBIRO_FORMAT and NULAMBIRO_REFUSAL are 0: this call
 *   has completed limit orders, and the stream goes on behind them. The state
 *   to go on from is written to state.
 * - The stream is decoded, NULAMBIRO_FORMAT is not 0: its end is reached, maybe
 *   with the last one of limit orders. state stays as it was.
 * - It is refused, NULAMBIRO_REFUSAL is not 0. state stays as it was.
 * So each call ends sooner or later, and a limit of 0 pauses at once, with the
 * state as it is, or finds that the stream is at its end.
 *
 * NULAMBIRO_PIXELS and NULAMBIRO_ORDERS are counted from the start of the
 * stream, not from the state. Each call does the work of its own orders alone:
 *
 *   uint64_t state[NULAMBIRO_STATE_PLACES], report[NULAMBIRO_REPORT_PLACES];
 *   nulambiro_start(bpp, state);
 *   for (;;) {
 *     nulambiro_decompress_some(src, src_len, dst, dst_len, width, height, bpp,
 *                               16, state, report);
 *     if (report[NULAMBIRO_FORMAT] || report[NULAMBIRO_REFUSAL])
 *       break;
 *     ...
 *   }
 *
 * Wherever such calls pause, the last one gives the report that
 * nulambiro_decompress gives, and all of them paint the bytes that it paints.
 * That is so if each call but the first gets the state that the one before it
 * wrote, the stream, width, height and bpp stay the same, and nothing else
 * writes the painted pixels of the target. Its other bytes may be written
 * between two calls; the stream's later pixels will replace them. Also, the
 * numbers of a state may be copied, and gone on from once more as long as the
 * pixels that were painted then are the same.
 *
 * Refused are, in this order:
 * - NULAMBIRO_INVALID_BPP, NULAMBIRO_EMPTY_IMAGE,
 *   NULAMBIRO_DIMENSIONS_TOO_LARGE and NULAMBIRO_BUFFER_TOO_SHORT, as by
 *   nulambiro_decompress.
 * - NULAMBIRO_BAD_STATE: NULAMBIRO_STATE_BYTES is above src_len,
 *   NULAMBIRO_STATE_PIXELS is above width * height, NULAMBIRO_STATE_ORDERS is
 *   above NULAMBIRO_STATE_PIXELS, NULAMBIRO_STATE_FIRST_ROW is 0 with less than
 *   width pixels, a byte of the foreground that the depth does not use is not
 *   0, or the numbers are those of no state: a foreground of 2^24 or more, an
 *   insert or a first row above 1, a place 6 or 7 that is not 0.
 * - NULAMBIRO_BAD_ORDER_CODE to NULAMBIRO_UNEXPECTED_ZERO_LENGTH, from the
 *   stream.
 * All other numbers are taken, also those that no stream leads to. The first
 * pixels of the target then count as those painted so far: the orders of later
 * rows look at them.
 *
 * What holds after every call, whatever the stream and the numbers are:
 * - The bytes of the target up to the state's pixels are as they were. Behind
 *   them, up to the first report[NULAMBIRO_PIXELS] * D bytes, stand the painted
 *   pixels. All later bytes are as they were, up to dst_len.
 * - Refusals 1 to 4 and NULAMBIRO_BAD_STATE change no byte, and both counts are
 *   0.
 * - Nothing outside the target, the state and the report is written, nothing
 *   outside them and the stream is read, and no memory is allocated.
 * - Orders <= pixels <= width * height. For states that calls have reached from
 *   nulambiro_start as said above, pixels <=
 *   NULAMBIRO_MAX_PIXELS_PER_BYTE * src_len, and the painted pixels depend on
 *   the stream, width, height and bpp alone.
 *
 * What the caller must provide:
 * - src must be readable for src_len bytes, dst readable and writable for
 *   dst_len bytes. Either may be a null pointer if its length is 0.
 * - state and report must have NULAMBIRO_STATE_PLACES and
 *   NULAMBIRO_REPORT_PLACES elements. All places of the report are written.
 * - src, dst, state and report must not overlap.
 * Nothing is required of the numbers: bad values are refused.
 */
void nulambiro_decompress_some(const uint8_t *src, size_t src_len, uint8_t *dst,
                               size_t dst_len, size_t width, size_t height,
                               size_t bpp, size_t limit,
                               uint64_t state[NULAMBIRO_STATE_PLACES],
                               uint64_t report[NULAMBIRO_REPORT_PLACES]);

/* Places in the report of nulambiro_compress. */
enum {
  /* NULAMBIRO_REFUSAL, NULAMBIRO_FIRST and NULAMBIRO_SECOND stand where
   * nulambiro_decompress has them. */
  /* The stream's length in bytes; 0 if refused. */
  NULAMBIRO_COMPRESS_LENGTH = 4
  /* Places 0, 5, 6 and 7 are always 0. */
};

/*
 * Encodes the picture src as a stream, writes the stream to the first bytes of
 * the output dst of dst_len bytes, and writes what came out to report.
 *
 * The picture takes the first width * height * D bytes of src, its rows and
 * pixels as nulambiro_decompress paints them. Bytes of src past it are not
 * looked at. Each picture has exactly one stream:
 * - The picture is one sequence of pixels, row after row. Pixels are equal if
 *   their stored bytes are: at 15 bpp the top bit counts too.
 * - From left to right, where at least 3 equal pixels start or, from row 1 on,
 *   at least 3 pixels that equal those above them, the longer stretch becomes
 *   a color run or a background run; a background run if they are as long.
 *   Stretches are measured up to 65535 pixels.
 * - A background run never directly follows another one. There the equal
 *   pixels become a color run, whatever stands above; where fewer than 3
 *   start, one pixel goes to a color image before the next background run.
 * - All pixels between runs form color images.
 * - No order has more than 65535 pixels, and each has the shortest form that
 *   there is for its length.
 *
 * nulambiro_decompress gives every picture back from its stream: it is not
 * refused, width * height pixels are painted, and each byte is the same.
 *
 * Refused are, in this order:
 * - NULAMBIRO_INVALID_BPP, NULAMBIRO_EMPTY_IMAGE and
 *   NULAMBIRO_DIMENSIONS_TOO_LARGE, as in decoding.
 * - NULAMBIRO_BUFFER_TOO_SHORT: src is shorter than the picture. First: bytes
 *   needed. Second: src_len.
 * - NULAMBIRO_OUTPUT_TOO_SHORT: the stream is longer than dst_len, and this is
 *   answered exactly then. It never is if dst_len is at least
 *   nulambiro_compress_bound(width, height, bpp). With a shorter output the
 *   stream is measured before it is written, which takes a second pass.
 *
 * What holds after every call, whatever the pixels and the numbers are:
 * - If it was not refused, the first report[NULAMBIRO_COMPRESS_LENGTH] bytes
 *   of the output are the stream. All later bytes of the output are as they
 *   were before the call, up to dst_len.
 * - If it was refused, no byte of the output has changed.
 * - Nothing outside the output and the report is written, nothing outside the
 *   picture and the output is read, and no memory is allocated.
 *
 * What the caller must provide:
 * - src must be readable for src_len bytes, dst readable and writable for
 *   dst_len bytes. Either may be a null pointer if its length is 0.
 * - report must have NULAMBIRO_REPORT_PLACES elements, so it is never null.
 *   Their old values do not matter; all of them are written.
 * - src, dst and report must not overlap.
 * Nothing is required of width, height and bpp: bad values are refused.
 */
void nulambiro_compress(const uint8_t *src, size_t src_len, uint8_t *dst,
                        size_t dst_len, size_t width, size_t height, size_t bpp,
                        uint64_t report[NULAMBIRO_REPORT_PLACES]);

/*
 * Returns the length of the longest stream that nulambiro_compress writes for
 * a picture of this size and depth, or 0 where it refuses these (1 to 3).
 *
 * With n = width * height, all quotients rounded down, it is
 * - at 8 bpp, n + (n + 3) / 35 + 1;
 * - at 15, 16 and 24 bpp, n * D + 3 * (n / 65535), and for the n % 65535
 *   pixels that are left 1 more if they are 1 to 31, 2 if they are 32 to 287,
 *   and 3 if they are more.
 * No shorter output serves all pictures. Nothing is required of the numbers.
 */
size_t nulambiro_compress_bound(size_t width, size_t height, size_t bpp);

/* Places in the reports of nulambiro_order_record and nulambiro_next_order. */
enum {
  /* 1 if there is such an order, else 0, and then all other places are 0. */
  NULAMBIRO_RECORD_FOUND = 0,
  /* The order's header byte. */
  NULAMBIRO_RECORD_HEADER = 1,
  /* Where its length stands: one of the numbers below. */
  NULAMBIRO_RECORD_PLACE = 2
  /* Places 3 to 7 are always 0. */
};

/* Where the length of an order stands. */
enum {
  /* Nowhere: F9, FA, FD and FE are orders of one length. */
  NULAMBIRO_LENGTH_NONE = 0,
  /* In the header byte. */
  NULAMBIRO_LENGTH_IN_HEADER = 1,
  /* In the byte after the header. */
  NULAMBIRO_LENGTH_IN_ONE_BYTE = 2,
  /* In the two bytes after the header. */
  NULAMBIRO_LENGTH_IN_TWO_BYTES = 3
};

/*
 * Writes to report how the length of an order was written: of order n, counted
 * from 0, of those that nulambiro_decompress completes with this stream, width,
 * height and bpp in any target that has space.
 *
 * There is no such order exactly if at most n are completed, which is what
 * nulambiro_decompress counts in report[NULAMBIRO_ORDERS]. A
 * foreground/background image that a refusal cuts short is not completed, and
 * where nulambiro_decompress refuses bpp or the sizes no order is.
 *
 * No target is needed and nothing is painted. A call takes as long as it takes
 * to go over the orders up to n, whatever they paint; to look at all orders of
 * a stream, go from one to the next by nulambiro_next_order.
 *
 * What the caller must provide: src must be readable for src_len bytes, or may
 * be a null pointer if that is 0. report must have NULAMBIRO_REPORT_PLACES
 * elements that do not overlap src; all of them are written. Nothing is
 * required of the numbers.
 */
void nulambiro_order_record(const uint8_t *src, size_t src_len, size_t width,
                            size_t height, size_t bpp, size_t n,
                            uint64_t report[NULAMBIRO_REPORT_PLACES]);

/* Places of a walk over the orders of a stream. */
enum {
  /* Bytes of the stream before the next order. */
  NULAMBIRO_WALK_BYTES = 0,
  /* Pixels that the orders so far have painted. */
  NULAMBIRO_WALK_PIXELS = 1,
  /* 1 if the last order was a background run, else 0. */
  NULAMBIRO_WALK_INSERT = 2,
  /* 1 if the first row has ended: the last order began past it; else 0. */
  NULAMBIRO_WALK_LATER_ROW = 3,
  /* Places 4 to 7 are 0. */
  NULAMBIRO_WALK_PLACES = 8
};

/*
 * Writes to report how the length of the next order of a stream was written,
 * and moves the walk behind that order. A walk of zeros stands at the start of
 * the stream: the first call from there gives the record of order 0, the next
 * one that of order 1, as nulambiro_order_record does, but each call takes the
 * time of one order:
 *
 *   uint64_t walk[NULAMBIRO_WALK_PLACES] = {0};
 *   uint64_t report[NULAMBIRO_REPORT_PLACES];
 *   for (;;) {
 *     nulambiro_next_order(src, src_len, width, height, bpp, walk, report);
 *     if (!report[NULAMBIRO_RECORD_FOUND])
 *       break;
 *     ...
 *   }
 *
 * If no further order is completed, the walk stays as it is. That is so at the
 * end of the stream, at an order that nulambiro_decompress refuses, and where
 * it refuses bpp or the sizes.
 *
 * Every walk is taken, also one that no stream leads to: the order is then the
 * one that comes in a state of decoding with these numbers.
 * NULAMBIRO_WALK_INSERT and NULAMBIRO_WALK_LATER_ROW count as 1 unless they are
 * 0, and places 4 to 7 are not looked at; if an order is found, all are written
 * as above.
 *
 * What the caller must provide: src must be readable for src_len bytes, or may
 * be a null pointer if that is 0. walk and report must have
 * NULAMBIRO_WALK_PLACES and NULAMBIRO_REPORT_PLACES elements; neither may
 * overlap the other or src. Nothing is required of the numbers.
 */
void nulambiro_next_order(const uint8_t *src, size_t src_len, size_t width,
                          size_t height, size_t bpp,
                          uint64_t walk[NULAMBIRO_WALK_PLACES],
                          uint64_t report[NULAMBIRO_REPORT_PLACES]);

/* The bytes of a palette: 256 entries of blue, green and red. */
#define NULAMBIRO_PALETTE_BYTES 768

/* Places in the report of nulambiro_expand. */
enum {
  /* NULAMBIRO_INVALID_BPP, NULAMBIRO_BUFFER_TOO_SHORT, or 0. */
  NULAMBIRO_EXPAND_REFUSAL = 0,
  /* Two numbers that belong to the refusal; 0 where it names none. */
  NULAMBIRO_EXPAND_FIRST = 1,
  NULAMBIRO_EXPAND_SECOND = 2,
  /* The color, 0 to 255 each; 0 if refused. */
  NULAMBIRO_EXPAND_BLUE = 3,
  NULAMBIRO_EXPAND_GREEN = 4,
  NULAMBIRO_EXPAND_RED = 5
  /* Places 6 and 7 are always 0. */
};

/*
 * Writes the color of one pixel to report.
 *
 * The pixel is given as its bytes in the picture, the first one as low. Bytes
 * that the depth does not use are ignored. At 24 bpp they are blue, green and
 * red. At 15 bpp the pixel has five bits for each channel, at 16 bpp five for
 * blue, six for green and five for red; blue has the lowest bits. The high bits
 * of a channel are repeated below it: c becomes 8 * c + c / 4 with five bits
 * and 4 * c + c / 16 with six, rounded down, so white is 255, 255, 255 at 15,
 * 16 and 24 bpp. At 8 bpp low is an index i into the palette, whose bytes
 * 3 * i, 3 * i + 1 and 3 * i + 2 are blue, green and red.
 *
 * Refused are, in this order:
 * - NULAMBIRO_INVALID_BPP: bpp is none of 8, 15, 16 and 24. First: bpp.
 * - NULAMBIRO_BUFFER_TOO_SHORT, at 8 bpp alone: the palette is shorter than
 *   NULAMBIRO_PALETTE_BYTES. First: NULAMBIRO_PALETTE_BYTES. Second:
 *   palette_len.
 *
 * What the caller must provide: palette must be readable for palette_len
 * bytes, or may be a null pointer if that is 0. report must have
 * NULAMBIRO_REPORT_PLACES elements that do not overlap the palette; all of
 * them are written.
 */
void nulambiro_expand(uint8_t low, uint8_t middle, uint8_t high, size_t bpp,
                      const uint8_t *palette, size_t palette_len,
                      uint64_t report[NULAMBIRO_REPORT_PLACES]);

/* What nulambiro_palette_look returns if no entry equals the color. */
#define NULAMBIRO_NO_ENTRY 256

/*
 * Returns the lowest index, 0 to 255, whose palette entry equals the color, or
 * NULAMBIRO_NO_ENTRY exactly if no entry does or the palette has fewer than
 * NULAMBIRO_PALETTE_BYTES bytes. Bytes past the 256 entries are ignored.
 *
 * palette must be readable for palette_len bytes, or may be a null pointer if
 * that is 0.
 */
size_t nulambiro_palette_look(const uint8_t *palette, size_t palette_len,
                              uint8_t blue, uint8_t green, uint8_t red);

/*
 * Returns 1 if two pictures are the same, else 0.
 *
 * They are the same exactly if both are valid, their bits per pixel, widths,
 * heights and pixel counts agree, and so do the stored bytes of all painted
 * pixels, the first a_pixels and b_pixels of them. Every bit of these bytes
 * counts, also the top bit at 15 bpp, which has no color. Painted pixels of
 * the same pictures have the same colors (see nulambiro_expand), but pictures
 * with the same colors need not be the same. A picture is valid if
 * - bpp is 8, 15, 16 or 24, and width and height are 1 to
 *   NULAMBIRO_MAX_SIDE,
 * - its length is at least the whole picture's, width * height pixels (see
 *   nulambiro_decompress),
 * - its pixel count is at most width * height,
 * - at 8 bpp, the palette has at least NULAMBIRO_PALETTE_BYTES bytes.
 *
 * a, b and palette must be readable for their lengths. Each may be a null
 * pointer if its length is 0; they may overlap, and a and b may be the same.
 * Nothing is required of the other numbers.
 */
uint8_t nulambiro_same_picture(const uint8_t *a, size_t a_len, size_t a_pixels,
                               size_t a_width, size_t a_height, size_t a_bpp,
                               const uint8_t *b, size_t b_len, size_t b_pixels,
                               size_t b_width, size_t b_height, size_t b_bpp,
                               const uint8_t *palette, size_t palette_len);

/* Places in the report of nulambiro_row_to_show. */
enum {
  /* 0: a part of the new picture. 1: a part of the one on screen. */
  NULAMBIRO_ROW_ON_SCREEN = 0,
  /* The first byte of the part, and its length in bytes. */
  NULAMBIRO_ROW_START = 1,
  NULAMBIRO_ROW_LENGTH = 2
  /* Places 3 to 7 are always 0. */
};

/*
 * Writes to report where a row stands that is to be shown: row `row` of the
 * new picture if it is wholly painted, (row + 1) * width <= pixels, else the
 * same part of the picture on screen. new_len and screen_len are the lengths
 * of the two pictures in bytes; the part lies inside both of them. pixels is
 * what the report of nulambiro_decompress counts for the new picture; a count
 * above width * height means a whole picture too.
 *
 * The part is empty, start and length 0 in the new picture, if bpp is none of
 * 8, 15, 16 and 24, width or height is not 1 to NULAMBIRO_MAX_SIDE, row is not
 * below height, or either length is less than the whole picture's.
 *
 * Nothing is required of the numbers. report must have NULAMBIRO_REPORT_PLACES
 * elements; all of them are written.
 */
void nulambiro_row_to_show(size_t new_len, size_t pixels, size_t screen_len,
                           size_t bpp, size_t width, size_t height, size_t row,
                           uint64_t report[NULAMBIRO_REPORT_PLACES]);

#ifdef __cplusplus
}
#endif

#endif
