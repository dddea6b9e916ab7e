/*
 * imgproc: proved operations on grey pictures.
 *
 * A picture is a range of bytes with a width, a height and a stride: pixel (x, y) is the byte at y * stride + x. The
 * range needs stride * (height - 1) + width bytes; the last row needs no padding. Sides run from 1 to
 * IMGPROC_MAX_SIDE.
 *
 * imgproc_root is never refused. Every other call returns a number: 0 if it did its work, else the reason why it was
 * refused (enum imgproc_refusal). A refused call changes nothing: no lent byte, no workspace, no number behind a
 * pointer. If several reasons fit, the call returns the first of them, in the order given for the call.
 *
 * "Layout" below means 1, 2, 3 and 4, in this order. Lengths are exact: no product of stride and height wraps.
 * If a call takes both src and dst, or builds a grid, its workspace is scratch: its contents before the call do not
 * matter, and its contents after an accepted call are unspecified.
 *
 * No proof can cover what the caller passes. The caller has to ensure that
 *  - each pointer is valid for its length: that many bytes (or numbers) may be read there, and written if the pointer
 *    is not to const. A pointer to a single number is valid for that number. Each is aligned for its type;
 *  - no two lent ranges overlap, unless both are only read. This includes numbers behind pointers;
 *  - no pointer is null, not even if the length is 0;
 *  - nobody else writes to what is lent, or reads what is written, while a call runs.
 * No call keeps a pointer or allocates, so calls on different ranges may run at the same time.
 *
 * imgproc_settings.h offers the calls with settings and those of records again, with structs in place of long rows of
 * numbers.
 */
#ifndef IMGPROC_H
#define IMGPROC_H

#include <stddef.h>
#include <stdint.h>

#if defined(__GNUC__) && !(defined(__x86_64__) && defined(__LP64__))
#error "the archive is for x86-64"
#endif

/* The version, and the number of the calling form, which changes whenever a declaration changes; an added one leaves
   it. */
#define IMGPROC_VERSION "0.5.1"
#define IMGPROC_ABI 3

/* The largest side of a picture. */
#define IMGPROC_MAX_SIDE 4096

/* The most pixels of a window of imgproc_sauvola_narrow_into: 32 bits hold the sum of that many squares of bytes. */
#define IMGPROC_MAX_WINDOW 66051

/* The bytes of a record. */
#define IMGPROC_RECORD_BYTES 28

#ifdef __cplusplus
extern "C" {
#endif

/* The answers of a call. 11 is the programs' alone. */
enum imgproc_refusal {
    IMGPROC_ACCEPTED = 0,
    IMGPROC_EMPTY_DIMENSIONS = 1,       /* a side is zero */
    IMGPROC_STRIDE_TOO_SMALL = 2,       /* the stride is below the width */
    IMGPROC_BUFFER_TOO_SMALL = 3,       /* the range is shorter than the picture needs */
    IMGPROC_SIDE_TOO_LARGE = 4,         /* a side is above IMGPROC_MAX_SIDE */
    IMGPROC_DIMENSION_MISMATCH = 5,     /* source and destination differ in width or height */
    IMGPROC_INVALID_KERNEL = 6,         /* the kernel is even or below 3 */
    IMGPROC_INVALID_CONFIGURATION = 7,  /* a setting is out of range */
    IMGPROC_WORKSPACE_TOO_SMALL = 8,    /* the range to copy to, or the workspace, is too short */
    IMGPROC_OUTSIDE_PICTURE = 9,        /* the pixel or row lies outside the picture, or the tile outside the grid */
    IMGPROC_GRID_BUFFER_TOO_SMALL = 10, /* a buffer of thresholds, skips or counts of open tiles is too short */
    IMGPROC_WINDOW_TOO_LARGE = 12,      /* a window has more than IMGPROC_MAX_WINDOW pixels */
    IMGPROC_NO_RECORD = 13,             /* the bytes are too few for a record, or have another mark */
    IMGPROC_BAD_RECORD = 14             /* a side is out of range, the counts do not add up, or a number is too large */
};

/* Returns the number of the archive's calling form, which its name holds too. Each file that includes this header
   refers to the name, so that an archive of another calling form does not link: it lacks the name. Nobody has to call
   it. */
uint32_t imgproc_abi_3(void);
#if defined(__has_attribute)
#if __has_attribute(retain)
#define IMGPROC_KEPT __attribute__((used, retain))
#endif
#endif
#if !defined(IMGPROC_KEPT) && defined(__GNUC__)
#define IMGPROC_KEPT __attribute__((used))
#endif
#ifndef IMGPROC_KEPT
#define IMGPROC_KEPT
#endif
static uint32_t (*const imgproc_abi_kept)(void) IMGPROC_KEPT = imgproc_abi_3;
#undef IMGPROC_KEPT

/* Tells whether a range of len bytes holds the picture. Refused: layout. */
uint32_t imgproc_validate_layout(size_t len, size_t width, size_t height, size_t stride);

/* Puts pixel (x, y) into *value. Refused: layout, then 9. */
uint32_t imgproc_get(const uint8_t *data, size_t len, size_t width, size_t height, size_t stride,
                     size_t x, size_t y, uint8_t *value);

/* Writes value to pixel (x, y), and to no other byte. Refused: layout, then 9. */
uint32_t imgproc_set(uint8_t *data, size_t len, size_t width, size_t height, size_t stride,
                     size_t x, size_t y, uint8_t value);

/* Tells whether row y may be read in place: if this returns 0, the row is the width bytes from data + y * stride on.
   Refused: layout, then 9. */
uint32_t imgproc_check_row(size_t len, size_t width, size_t height, size_t stride, size_t y);

/* Copies row y to the first width bytes of out, and leaves the rest of out. Refused: layout, then 9, then 8 if out_len
   is below width. */
uint32_t imgproc_row(const uint8_t *data, size_t len, size_t width, size_t height, size_t stride,
                     size_t y, uint8_t *out, size_t out_len);

/* Copies the rows to a packed plane: width * height bytes without padding, from workspace + at on. No other byte of
   the workspace changes. Refused: layout, then 8 if the plane does not lie in the workspace. */
uint32_t imgproc_pack(const uint8_t *src, size_t src_len, size_t width, size_t height, size_t stride,
                      uint8_t *workspace, size_t workspace_len, size_t at);

/* Copies a packed plane from workspace + at on to the rows of dst. No byte outside the rows changes. Refused: layout
   of dst, then 8 if the plane does not lie in the workspace. */
uint32_t imgproc_unpack(const uint8_t *workspace, size_t workspace_len, size_t at,
                        uint8_t *dst, size_t dst_len, size_t width, size_t height, size_t stride);

/* Erosion, dilation, opening (erosion, then dilation) and closing (dilation, then erosion) with a square kernel. In a
   line of n samples with r = (kernel_size - 1) / 2, position i has low = max(0, i - r) and high = min(i + r, n - 1).
   If low / kernel_size and high / kernel_size (rounded down) differ, its reach is low..high; otherwise it is the whole
   block of kernel_size samples that holds both, cut at the line's end. Erosion takes the minimum over the reach of x
   times the reach of y, dilation the maximum. Each call writes the rows of dst and no other byte of it, and puts the
   number of its comparisons of samples into *comparisons. Strides may differ. Refused: layout of src, layout of dst, 5,
   6, then 8 if workspace_len is below 6 * width * height. */
uint32_t imgproc_grayscale_erode_into(const uint8_t *src, size_t src_len,
                                      size_t src_width, size_t src_height, size_t src_stride,
                                      uint8_t *dst, size_t dst_len,
                                      size_t dst_width, size_t dst_height, size_t dst_stride,
                                      size_t kernel_size, uint8_t *workspace, size_t workspace_len,
                                      uint64_t *comparisons);
uint32_t imgproc_grayscale_dilate_into(const uint8_t *src, size_t src_len,
                                       size_t src_width, size_t src_height, size_t src_stride,
                                       uint8_t *dst, size_t dst_len,
                                       size_t dst_width, size_t dst_height, size_t dst_stride,
                                       size_t kernel_size, uint8_t *workspace, size_t workspace_len,
                                       uint64_t *comparisons);
uint32_t imgproc_grayscale_open_into(const uint8_t *src, size_t src_len,
                                     size_t src_width, size_t src_height, size_t src_stride,
                                     uint8_t *dst, size_t dst_len,
                                     size_t dst_width, size_t dst_height, size_t dst_stride,
                                     size_t kernel_size, uint8_t *workspace, size_t workspace_len,
                                     uint64_t *comparisons);
uint32_t imgproc_grayscale_close_into(const uint8_t *src, size_t src_len,
                                      size_t src_width, size_t src_height, size_t src_stride,
                                      uint8_t *dst, size_t dst_len,
                                      size_t dst_width, size_t dst_height, size_t dst_stride,
                                      size_t kernel_size, uint8_t *workspace, size_t workspace_len,
                                      uint64_t *comparisons);

/* Divides each pixel by its background: the closing with kernel structuring_element, raised to denominator_floor where
   it is below. The value is pixel * target_luma / background, rounded down, at most 255. The call writes the rows of
   dst and no other byte of it, and puts the number of the closing's comparisons of samples into *comparisons. Refused:
   layout of src, layout of dst, 5, then 7 if structuring_element is even or below 3 or denominator_floor is 0, then 8
   if workspace_len is below 7 * width * height. */
uint32_t imgproc_background_divide_into(const uint8_t *src, size_t src_len,
                                        size_t src_width, size_t src_height, size_t src_stride,
                                        uint8_t *dst, size_t dst_len,
                                        size_t dst_width, size_t dst_height, size_t dst_stride,
                                        size_t structuring_element, uint8_t target_luma, uint8_t denominator_floor,
                                        uint8_t *workspace, size_t workspace_len, uint64_t *comparisons);

/* Writes dark_value for each pixel at or below its threshold and light_value for every other. The window of a pixel is
   all pixels within radius on both axes, cut at the borders, with sum S, sum of squares Q and count c. With every
   quotient rounded down: mean = S / c; s = the largest whole number whose square is at most Q / c - mean * mean;
   scale = 1000 - k_milli + k_milli * s / dynamic_range; threshold = mean * scale / 1000. The call writes the rows of
   dst and no other byte of it. Refused: layout of src, layout of dst, 5, then 7 if radius is 0, k_milli above 1000 or
   dynamic_range 0, then 8 if workspace_len is below 2 * (width + 1) * (height + 1) numbers. */
uint32_t imgproc_sauvola_into(const uint8_t *src, size_t src_len,
                              size_t src_width, size_t src_height, size_t src_stride,
                              uint8_t *dst, size_t dst_len,
                              size_t dst_width, size_t dst_height, size_t dst_stride,
                              size_t radius, uint32_t k_milli, uint32_t dynamic_range,
                              uint8_t dark_value, uint8_t light_value,
                              uint64_t *workspace, size_t workspace_len);

/* Writes what imgproc_sauvola_into writes. Its workspace is of u32s and so takes half the bytes, but it takes only
   windows of at most IMGPROC_MAX_WINDOW pixels. Refused: layout of src, layout of dst, 5, 7 as imgproc_sauvola_into,
   then 12 if the largest window, min(2 * radius + 1, width) * min(2 * radius + 1, height) pixels, is above that, then 8
   if workspace_len is below 2 * (width + 1) * (height + 1) numbers. Any radius but 0 is possible: the product is the
   true one. */
uint32_t imgproc_sauvola_narrow_into(const uint8_t *src, size_t src_len,
                                     size_t src_width, size_t src_height, size_t src_stride,
                                     uint8_t *dst, size_t dst_len,
                                     size_t dst_width, size_t dst_height, size_t dst_stride,
                                     size_t radius, uint32_t k_milli, uint32_t dynamic_range,
                                     uint8_t dark_value, uint8_t light_value,
                                     uint32_t *workspace, size_t workspace_len);

/* Cuts the picture into tiles and writes one threshold and one skip byte (0 or 1) for each, tile row by tile row, to
   the first t bytes of thresholds and of skips; later bytes stay. *tiles_x receives width / tile_width, rounded up,
   *tiles_y likewise; t is their product. For each tile the pixels of all tiles within neighborhood_radius on both axes
   give minimum, maximum, sum S, sum of squares Q and count c. A tile is skipped if maximum - minimum is below
   contrast_floor. A tile that is not skipped is open: the first numbers of open_tiles receive the number of open tiles
   of each tile row, and later ones stay. With method 0 the base of a tile's threshold is (minimum + maximum) / 2,
   rounded down; k and dynamic_range do not matter. With method 1 each step is rounded once to a double: mean = S / c;
   variance = Q / c - mean * mean, or 0 if that is below 0; value = mean * (1 + k * (root(variance) / dynamic_range -
   1)). The base is then the number of whole i from 0 to 254 with value >= i + 0.5. The threshold is base +
   threshold_offset, cut to 0..255. Refused: layout, then 7 if a tile side is 0, method is neither 0 nor 1 or, with
   method 1, k or dynamic_range is not finite or dynamic_range not above 0, then 8 if workspace_len is below 5 * t
   numbers, then 10 if thresholds_len or skips_len is below t or open_tiles_len below the number of tile rows. */
uint32_t imgproc_tile_grid_build(const uint8_t *src, size_t src_len, size_t width, size_t height, size_t stride,
                                 size_t tile_width, size_t tile_height, size_t neighborhood_radius,
                                 int16_t threshold_offset, uint8_t contrast_floor,
                                 uint32_t method, double k, double dynamic_range,
                                 uint64_t *workspace, size_t workspace_len,
                                 uint8_t *thresholds, size_t thresholds_len, uint8_t *skips, size_t skips_len,
                                 uint16_t *open_tiles, size_t open_tiles_len,
                                 size_t *tiles_x, size_t *tiles_y);

/* Puts the threshold of the tile that holds pixel (x, y) into *value. Refused: 7 if a side is not in
   1..IMGPROC_MAX_SIDE, a tile side is 0 or a tile count is not the side divided by the tile side, rounded up; then 10
   if len is below tiles_x * tiles_y; then 9. */
uint32_t imgproc_threshold_at(size_t width, size_t height, size_t tile_width, size_t tile_height,
                              size_t tiles_x, size_t tiles_y, const uint8_t *thresholds, size_t len,
                              size_t x, size_t y, uint8_t *value);

/* Puts 1 into *value if the tile that holds pixel (x, y) is skipped, else 0. Every skip byte but 0 counts as skipped.
   Refused as imgproc_threshold_at. */
uint32_t imgproc_is_skip(size_t width, size_t height, size_t tile_width, size_t tile_height,
                         size_t tiles_x, size_t tiles_y, const uint8_t *skips, size_t len,
                         size_t x, size_t y, uint8_t *value);

/* Puts 1 into *value if every tile of the tile row that holds row y is skipped, that is if the row's number in
   open_tiles is 0; else 0. Refused as imgproc_threshold_at, with 10 if len is below tiles_y numbers. */
uint32_t imgproc_row_all_skip(size_t width, size_t height, size_t tile_width, size_t tile_height,
                              size_t tiles_x, size_t tiles_y, const uint16_t *open_tiles, size_t len,
                              size_t y, uint8_t *value);

/* imgproc_blank_tile skips a tile by hand, imgproc_clear_tile takes its skip away. They set the skip byte of the tile
   in column tile_column and row tile_row of the grid, both counted from 0, to 1 or to 0. Then they count the open tiles
   of that tile row afresh from the skip bytes, so the number that open_tiles held for the row does not matter. No other
   byte or number changes. A tile may be skipped already, or open. Refused: 7 as imgproc_threshold_at; then 10 if
   skips_len is below tiles_x * tiles_y or open_tiles_len below tiles_y numbers; then 9 if tile_column is not below
   tiles_x or tile_row not below tiles_y. */
uint32_t imgproc_blank_tile(size_t width, size_t height, size_t tile_width, size_t tile_height,
                            size_t tiles_x, size_t tiles_y, uint8_t *skips, size_t skips_len,
                            uint16_t *open_tiles, size_t open_tiles_len, size_t tile_column, size_t tile_row);
uint32_t imgproc_clear_tile(size_t width, size_t height, size_t tile_width, size_t tile_height,
                            size_t tiles_x, size_t tiles_y, uint8_t *skips, size_t skips_len,
                            uint16_t *open_tiles, size_t open_tiles_len, size_t tile_column, size_t tile_row);

/* Reads a picture: judges each pixel dark, light or skipped, and counts the three. The call divides the picture by its
   background with structuring_element, target_luma and denominator_floor, as imgproc_background_divide_into does, and
   opens the result with opening_kernel, as imgproc_grayscale_open_into does. In the opened picture it skips the tiles
   that imgproc_tile_grid_build would skip with the next eight settings. Every other pixel is dark or light as
   imgproc_sauvola_into would judge it with the next five. The call writes dark_value for a dark pixel and light_value
   for a light or skipped one to the rows of dst, and no other byte of dst. The first numbers of open_tiles receive the
   number of open tiles of each tile row, as in a build, and later ones stay. A reading makes its own skips: tiles that
   were blanked by hand do not enter it. *dark, *light and *skipped receive the number of pixels of each kind,
   *comparisons the number of comparisons of samples in the closing and the opening. With t the number of tiles,
   refused: layout of src, layout of dst, 5, then 7 for the settings of the division, 6 if opening_kernel is even or
   below 3, 7 for the settings of the grid, method included, 7 for those of the threshold, then 8 if bytes_len is below
   9 * width * height + 2 * t or u64s_len below 2 * (width + 1) * (height + 1) + 5 * t numbers, then 10 if
   open_tiles_len is below the number of tile rows, height / tile_height, rounded up. */
uint32_t imgproc_reading(const uint8_t *src, size_t src_len, size_t src_width, size_t src_height, size_t src_stride,
                         uint8_t *dst, size_t dst_len, size_t dst_width, size_t dst_height, size_t dst_stride,
                         size_t structuring_element, uint8_t target_luma, uint8_t denominator_floor,
                         size_t opening_kernel,
                         size_t tile_width, size_t tile_height, size_t neighborhood_radius,
                         int16_t threshold_offset, uint8_t contrast_floor,
                         uint32_t method, double k, double dynamic_range,
                         size_t radius, uint32_t k_milli, uint32_t sauvola_dynamic_range,
                         uint8_t dark_value, uint8_t light_value,
                         uint8_t *bytes, size_t bytes_len, uint64_t *u64s, size_t u64s_len,
                         uint16_t *open_tiles, size_t open_tiles_len,
                         uint64_t *dark, uint64_t *light, uint64_t *skipped, uint64_t *comparisons);

/* A record keeps a reading in IMGPROC_RECORD_BYTES bytes: the mark, which is the two bytes 52 31 hexadecimal, and then
   the numbers, each with its highest byte first. They are the number of the flask that was read (4 bytes), the number
   of the pass (2), the picture's width and height (2 each), and dark, light, skipped and comparisons (4 each). Its
   values are good if both sides are in 1..IMGPROC_MAX_SIDE and dark + light + skipped, the true sum, is width * height.
   Flask, pass and comparisons may be any numbers of so many bytes. */

/* Writes the record of these numbers to the first IMGPROC_RECORD_BYTES bytes of destination, and changes no byte after
   them. Refused: 13 if destination_len is below IMGPROC_RECORD_BYTES, then 14 if the values are not good or comparisons
   is above 2^32 - 1. No number is cut to its field before it is checked. */
uint32_t imgproc_record_write(uint32_t flask, uint16_t pass, size_t width, size_t height,
                              uint64_t dark, uint64_t light, uint64_t skipped, uint64_t comparisons,
                              uint8_t *destination, size_t destination_len);

/* Reads the record in the first IMGPROC_RECORD_BYTES bytes of source, and puts its numbers behind the pointers. Later
   bytes do not matter. Refused: 13 if source_len is below IMGPROC_RECORD_BYTES or the mark is another, then 14 if the
   values are not good. */
uint32_t imgproc_record_read(const uint8_t *source, size_t source_len, uint32_t *flask, uint16_t *pass,
                             size_t *width, size_t *height,
                             uint64_t *dark, uint64_t *light, uint64_t *skipped, uint64_t *comparisons);

/* Returns the square root of x, correctly rounded. The root of -0.0 is -0.0; the root of a NaN or of a value below zero
   is a NaN. */
double imgproc_root(double x);

#ifdef __cplusplus
}
#endif

#endif
