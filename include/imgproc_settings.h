/*
 * The calls of imgproc.h that take settings or a record's numbers, with a struct for each picture, each kind of
 * settings, each answer and each record, so that every number has a name. Each call here makes one call there: it
 * returns the same number, is refused in the same order, and asks the same of the pointers. For C99 and C++11.
 *
 *     struct imgproc_reading_settings settings = IMGPROC_READING_DEFAULTS;
 *     settings.opening_kernel = 5;
 */
#ifndef IMGPROC_SETTINGS_H
#define IMGPROC_SETTINGS_H

#include "imgproc.h"

/* A picture that is read: pixel (x, y) is data[y * stride + x], and data has len bytes. */
struct imgproc_source {
    const uint8_t *data;
    size_t len;
    size_t width;
    size_t height;
    size_t stride;
};

/* A picture that is written. */
struct imgproc_destination {
    uint8_t *data;
    size_t len;
    size_t width;
    size_t height;
    size_t stride;
};

/* A byte workspace, a buffer of thresholds or skips, or a destination of a record. */
struct imgproc_bytes {
    uint8_t *data;
    size_t len;
};

/* A u64 workspace; len counts numbers, not bytes. */
struct imgproc_u64s {
    uint64_t *data;
    size_t len;
};

/* A u32 workspace; len counts numbers, not bytes. */
struct imgproc_u32s {
    uint32_t *data;
    size_t len;
};

/* A buffer of the number of open tiles of each tile row: those that are not skipped. len counts numbers, not bytes. */
struct imgproc_open_tiles {
    uint16_t *data;
    size_t len;
};

/* Settings of imgproc_divide. */
struct imgproc_division_settings {
    size_t structuring_element; /* kernel of the closing that gives the background: odd, at least 3 */
    uint8_t target_luma;        /* a pixel as bright as its background becomes this */
    uint8_t denominator_floor;  /* the background is raised to this where it is below: not 0 */
};
#define IMGPROC_DIVISION_DEFAULTS { 31, 200, 8 }

/* The method that computes a tile's threshold. */
enum imgproc_method {
    IMGPROC_MIDRANGE = 0, /* halfway between the neighbourhood's minimum and maximum */
    IMGPROC_SAUVOLA = 1   /* by Sauvola's formula, with k and dynamic_range */
};

/* Settings of imgproc_build_grid. The defaults set k and dynamic_range to 0: a call with IMGPROC_SAUVOLA is refused
   unless dynamic_range is set too. */
struct imgproc_grid_settings {
    size_t tile_width;          /* not 0 */
    size_t tile_height;         /* not 0 */
    size_t neighborhood_radius; /* the tiles up to this far away on each axis are a tile's neighbourhood */
    int16_t threshold_offset;   /* added to each threshold before it is cut to a byte */
    uint8_t contrast_floor;     /* a tile is skipped if its neighbourhood has less contrast than this */
    uint32_t method;            /* one of enum imgproc_method */
    double k;                   /* finite */
    double dynamic_range;       /* finite and above 0 */
};
#define IMGPROC_GRID_DEFAULTS { 16, 16, 1, 0, 12, IMGPROC_MIDRANGE, 0.0, 0.0 }

/* Settings of imgproc_binarize and of imgproc_binarize_narrow. */
struct imgproc_sauvola_settings {
    size_t radius;          /* the window reaches this far to each side: not 0 */
    uint32_t k_milli;       /* Sauvola's k in thousandths: at most 1000 */
    uint32_t dynamic_range; /* the spread at which the threshold is the mean: not 0 */
    uint8_t dark_value;     /* written for a pixel at or below its threshold */
    uint8_t light_value;    /* written for every other */
};
#define IMGPROC_SAUVOLA_DEFAULTS { 8, 200, 128, 0, 255 }

/* Settings of imgproc_read. */
struct imgproc_reading_settings {
    struct imgproc_division_settings division;
    size_t opening_kernel;             /* odd, at least 3 */
    struct imgproc_grid_settings grid; /* a reading uses only the grid's skips */
    struct imgproc_sauvola_settings sauvola;
};
#define IMGPROC_READING_DEFAULTS { IMGPROC_DIVISION_DEFAULTS, 3, IMGPROC_GRID_DEFAULTS, IMGPROC_SAUVOLA_DEFAULTS }

/* Returns settings for a column that is this many pixels wide between its walls. A number up to a quarter too large
   works as well; one that is too small does not. The settings were measured on pictures made by a program, of columns
   8 to 320 pixels wide and up to a third of the picture, with at least 250 pixels of liquid. At least 99 % of the
   liquid was found, and the other pixels judged dark were at most 1 % as many as the liquid has, if
    - the liquid is 0.4 to 0.85 times as bright as the empty column, which is 0.93 to 0.95 times as bright as the light
      beside it;
    - that light is 160 or more in the middle of the picture, with noise of at most a hundredth of it;
    - the light loses no more to the corners than 0.1 in a picture three to five columns wide, 0.12 from six on, 0.15
      from eight and 0.2 from twelve.
   docs/SETTINGS.md has the tables, and says what lies outside this range. Nothing of this is proved. */
static inline struct imgproc_reading_settings imgproc_settings_for_column(size_t pixels) {
    struct imgproc_reading_settings settings = IMGPROC_READING_DEFAULTS;
    /* No picture has a wider column, and nothing below wraps. */
    const size_t column = pixels < 1 ? 1 : pixels > IMGPROC_MAX_SIDE ? IMGPROC_MAX_SIDE : pixels;
    settings.division.structuring_element = 2 * column + 1;
    settings.grid.neighborhood_radius = (column + settings.grid.tile_width - 1) / settings.grid.tile_width;
    settings.sauvola.radius = column + column / 4;
    settings.sauvola.k_milli = 130;
    settings.sauvola.dynamic_range = 48;
    return settings;
}

/* The counts of a reading. Dark, light and skipped add up to the number of pixels. */
struct imgproc_counts {
    uint64_t dark;
    uint64_t light;
    uint64_t skipped;
    uint64_t comparisons; /* of samples, in the closing and the opening */
};

/* A reading that a record keeps. */
struct imgproc_record {
    uint32_t flask; /* the number of the flask that was read */
    uint16_t pass;  /* the number of the pass */
    size_t width;   /* of the picture */
    size_t height;
    struct imgproc_counts counts;
};

/* The sizes of a grid, as the calls to a built grid take them. */
struct imgproc_grid {
    size_t width;
    size_t height;
    size_t tile_width;
    size_t tile_height;
    size_t tiles_x;
    size_t tiles_y;
};

/* Returns the sizes of the grid that a build or a reading lays over a picture; no tiles if a tile side is 0. */
static inline struct imgproc_grid imgproc_grid_of(size_t width, size_t height,
                                                  const struct imgproc_grid_settings *settings) {
    struct imgproc_grid grid = {width, height, settings->tile_width, settings->tile_height, 0, 0};
    if (grid.tile_width != 0 && grid.tile_height != 0) {
        grid.tiles_x = width / grid.tile_width + (width % grid.tile_width != 0);
        grid.tiles_y = height / grid.tile_height + (height % grid.tile_height != 0);
    }
    return grid;
}

/* Returns an answer in words. */
static inline const char *imgproc_refusal_words(uint32_t number) {
    switch (number) {
    case IMGPROC_ACCEPTED: return "accepted";
    case IMGPROC_EMPTY_DIMENSIONS: return "a side of the picture is zero";
    case IMGPROC_STRIDE_TOO_SMALL: return "the stride is below the width";
    case IMGPROC_BUFFER_TOO_SMALL: return "the buffer does not hold the picture";
    case IMGPROC_SIDE_TOO_LARGE: return "a side of the picture is above the side limit";
    case IMGPROC_DIMENSION_MISMATCH: return "source and destination differ in size";
    case IMGPROC_INVALID_KERNEL: return "the kernel is even or below 3";
    case IMGPROC_INVALID_CONFIGURATION: return "a setting is out of range";
    case IMGPROC_WORKSPACE_TOO_SMALL: return "the workspace is too short";
    case IMGPROC_OUTSIDE_PICTURE: return "the place lies outside the picture or the grid";
    case IMGPROC_GRID_BUFFER_TOO_SMALL: return "a grid buffer is too short";
    case IMGPROC_WINDOW_TOO_LARGE: return "a window has too many pixels";
    case IMGPROC_NO_RECORD: return "the bytes are too few for a record, or have another mark";
    case IMGPROC_BAD_RECORD: return "no record has these numbers";
    default: return "the reason is not known here";
    }
}

/* Return a + b and a * b, or the largest size_t if the result does not fit. */
static inline size_t imgproc_plus(size_t a, size_t b) {
    return a > SIZE_MAX - b ? SIZE_MAX : a + b;
}
static inline size_t imgproc_times(size_t a, size_t b) {
    return b != 0 && a > SIZE_MAX / b ? SIZE_MAX : a * b;
}
/* Cuts a count of u64s to what malloc can be asked for, so that the length in bytes never wraps. */
static inline size_t imgproc_u64_count(size_t count) {
    return count > SIZE_MAX / sizeof(uint64_t) ? SIZE_MAX / sizeof(uint64_t) : count;
}

/* The next functions return the lengths of workspaces and buffers. For a picture or settings that will be refused the
   length means nothing. */

/* Returns the bytes that an erosion, a dilation, an opening or a closing needs. */
static inline size_t imgproc_sweep_bytes(size_t width, size_t height) {
    return imgproc_times(6, imgproc_times(width, height));
}

/* Returns the bytes that imgproc_divide needs. */
static inline size_t imgproc_division_bytes(size_t width, size_t height) {
    return imgproc_times(7, imgproc_times(width, height));
}

/* Returns the u64s that imgproc_binarize needs. */
static inline size_t imgproc_sauvola_u64s(size_t width, size_t height) {
    return imgproc_u64_count(imgproc_times(2, imgproc_times(imgproc_plus(width, 1), imgproc_plus(height, 1))));
}

/* Returns the u32s that imgproc_binarize_narrow needs: as many as imgproc_binarize needs u64s. */
static inline size_t imgproc_sauvola_u32s(size_t width, size_t height) {
    return imgproc_sauvola_u64s(width, height);
}

/* Returns the number of tiles of a picture, which is also the length of its thresholds and of its skips; 0 if a tile
   side is 0. */
static inline size_t imgproc_tiles(size_t width, size_t height, const struct imgproc_grid_settings *settings) {
    const struct imgproc_grid grid = imgproc_grid_of(width, height, settings);
    return imgproc_times(grid.tiles_x, grid.tiles_y);
}

/* Returns the number of tile rows of a picture, which is also the length of its counts of open tiles, for a build and
   for a reading; 0 if a tile side is 0. */
static inline size_t imgproc_tile_rows(size_t width, size_t height, const struct imgproc_grid_settings *settings) {
    const size_t rows = imgproc_grid_of(width, height, settings).tiles_y;
    return rows > SIZE_MAX / sizeof(uint16_t) ? SIZE_MAX / sizeof(uint16_t) : rows;
}

/* Returns the u64s that imgproc_build_grid needs. */
static inline size_t imgproc_grid_u64s(size_t width, size_t height, const struct imgproc_grid_settings *settings) {
    return imgproc_u64_count(imgproc_times(5, imgproc_tiles(width, height, settings)));
}

/* Returns the bytes that imgproc_read needs. */
static inline size_t imgproc_reading_bytes(size_t width, size_t height,
                                           const struct imgproc_reading_settings *settings) {
    return imgproc_plus(imgproc_times(9, imgproc_times(width, height)),
                        imgproc_times(2, imgproc_tiles(width, height, &settings->grid)));
}

/* Returns the u64s that imgproc_read needs. */
static inline size_t imgproc_reading_u64s(size_t width, size_t height,
                                          const struct imgproc_reading_settings *settings) {
    return imgproc_u64_count(imgproc_plus(imgproc_sauvola_u64s(width, height),
                                          imgproc_grid_u64s(width, height, &settings->grid)));
}

/* Calls imgproc_background_divide_into. */
static inline uint32_t imgproc_divide(struct imgproc_source src, struct imgproc_destination dst,
                                      const struct imgproc_division_settings *settings,
                                      struct imgproc_bytes workspace, uint64_t *comparisons) {
    return imgproc_background_divide_into(src.data, src.len, src.width, src.height, src.stride,
                                          dst.data, dst.len, dst.width, dst.height, dst.stride,
                                          settings->structuring_element, settings->target_luma,
                                          settings->denominator_floor,
                                          workspace.data, workspace.len, comparisons);
}

/* Calls imgproc_sauvola_into. */
static inline uint32_t imgproc_binarize(struct imgproc_source src, struct imgproc_destination dst,
                                        const struct imgproc_sauvola_settings *settings,
                                        struct imgproc_u64s workspace) {
    return imgproc_sauvola_into(src.data, src.len, src.width, src.height, src.stride,
                                dst.data, dst.len, dst.width, dst.height, dst.stride,
                                settings->radius, settings->k_milli, settings->dynamic_range,
                                settings->dark_value, settings->light_value,
                                workspace.data, workspace.len);
}

/* Calls imgproc_sauvola_narrow_into. */
static inline uint32_t imgproc_binarize_narrow(struct imgproc_source src, struct imgproc_destination dst,
                                               const struct imgproc_sauvola_settings *settings,
                                               struct imgproc_u32s workspace) {
    return imgproc_sauvola_narrow_into(src.data, src.len, src.width, src.height, src.stride,
                                       dst.data, dst.len, dst.width, dst.height, dst.stride,
                                       settings->radius, settings->k_milli, settings->dynamic_range,
                                       settings->dark_value, settings->light_value,
                                       workspace.data, workspace.len);
}

/* Calls imgproc_tile_grid_build. A refused call leaves *grid as it was. */
static inline uint32_t imgproc_build_grid(struct imgproc_source src, const struct imgproc_grid_settings *settings,
                                          struct imgproc_u64s workspace, struct imgproc_bytes thresholds,
                                          struct imgproc_bytes skips, struct imgproc_open_tiles open_tiles,
                                          struct imgproc_grid *grid) {
    size_t tiles_x = 0, tiles_y = 0;
    const uint32_t answer = imgproc_tile_grid_build(
        src.data, src.len, src.width, src.height, src.stride,
        settings->tile_width, settings->tile_height, settings->neighborhood_radius,
        settings->threshold_offset, settings->contrast_floor,
        settings->method, settings->k, settings->dynamic_range,
        workspace.data, workspace.len, thresholds.data, thresholds.len, skips.data, skips.len,
        open_tiles.data, open_tiles.len, &tiles_x, &tiles_y);
    if (answer == IMGPROC_ACCEPTED) {
        grid->width = src.width;
        grid->height = src.height;
        grid->tile_width = settings->tile_width;
        grid->tile_height = settings->tile_height;
        grid->tiles_x = tiles_x;
        grid->tiles_y = tiles_y;
    }
    return answer;
}

/* Call imgproc_threshold_at, imgproc_is_skip and imgproc_row_all_skip. */
static inline uint32_t imgproc_grid_threshold_at(const struct imgproc_grid *grid, struct imgproc_bytes thresholds,
                                                 size_t x, size_t y, uint8_t *value) {
    return imgproc_threshold_at(grid->width, grid->height, grid->tile_width, grid->tile_height,
                                grid->tiles_x, grid->tiles_y, thresholds.data, thresholds.len, x, y, value);
}
static inline uint32_t imgproc_grid_is_skip(const struct imgproc_grid *grid, struct imgproc_bytes skips,
                                            size_t x, size_t y, uint8_t *value) {
    return imgproc_is_skip(grid->width, grid->height, grid->tile_width, grid->tile_height,
                           grid->tiles_x, grid->tiles_y, skips.data, skips.len, x, y, value);
}
static inline uint32_t imgproc_grid_row_all_skip(const struct imgproc_grid *grid, struct imgproc_open_tiles open_tiles,
                                                 size_t y, uint8_t *value) {
    return imgproc_row_all_skip(grid->width, grid->height, grid->tile_width, grid->tile_height,
                                grid->tiles_x, grid->tiles_y, open_tiles.data, open_tiles.len, y, value);
}

/* Call imgproc_blank_tile and imgproc_clear_tile. */
static inline uint32_t imgproc_grid_blank_tile(const struct imgproc_grid *grid, struct imgproc_bytes skips,
                                               struct imgproc_open_tiles open_tiles,
                                               size_t tile_column, size_t tile_row) {
    return imgproc_blank_tile(grid->width, grid->height, grid->tile_width, grid->tile_height,
                              grid->tiles_x, grid->tiles_y, skips.data, skips.len,
                              open_tiles.data, open_tiles.len, tile_column, tile_row);
}
static inline uint32_t imgproc_grid_clear_tile(const struct imgproc_grid *grid, struct imgproc_bytes skips,
                                               struct imgproc_open_tiles open_tiles,
                                               size_t tile_column, size_t tile_row) {
    return imgproc_clear_tile(grid->width, grid->height, grid->tile_width, grid->tile_height,
                              grid->tiles_x, grid->tiles_y, skips.data, skips.len,
                              open_tiles.data, open_tiles.len, tile_column, tile_row);
}

/* Calls imgproc_reading. A refused call leaves *counts as it was. The counts of open tiles answer
   imgproc_grid_row_all_skip, for the grid of imgproc_grid_of. */
static inline uint32_t imgproc_read(struct imgproc_source src, struct imgproc_destination dst,
                                    const struct imgproc_reading_settings *settings,
                                    struct imgproc_bytes bytes, struct imgproc_u64s u64s,
                                    struct imgproc_open_tiles open_tiles, struct imgproc_counts *counts) {
    return imgproc_reading(src.data, src.len, src.width, src.height, src.stride,
                           dst.data, dst.len, dst.width, dst.height, dst.stride,
                           settings->division.structuring_element, settings->division.target_luma,
                           settings->division.denominator_floor,
                           settings->opening_kernel,
                           settings->grid.tile_width, settings->grid.tile_height, settings->grid.neighborhood_radius,
                           settings->grid.threshold_offset, settings->grid.contrast_floor,
                           settings->grid.method, settings->grid.k, settings->grid.dynamic_range,
                           settings->sauvola.radius, settings->sauvola.k_milli, settings->sauvola.dynamic_range,
                           settings->sauvola.dark_value, settings->sauvola.light_value,
                           bytes.data, bytes.len, u64s.data, u64s.len, open_tiles.data, open_tiles.len,
                           &counts->dark, &counts->light, &counts->skipped, &counts->comparisons);
}

/* Calls imgproc_record_write. */
static inline uint32_t imgproc_write_record(const struct imgproc_record *record, struct imgproc_bytes destination) {
    return imgproc_record_write(record->flask, record->pass, record->width, record->height,
                                record->counts.dark, record->counts.light, record->counts.skipped,
                                record->counts.comparisons, destination.data, destination.len);
}

/* Calls imgproc_record_read. A refused call leaves *record as it was. */
static inline uint32_t imgproc_read_record(const uint8_t *source, size_t source_len, struct imgproc_record *record) {
    return imgproc_record_read(source, source_len, &record->flask, &record->pass, &record->width, &record->height,
                               &record->counts.dark, &record->counts.light, &record->counts.skipped,
                               &record->counts.comparisons);
}

#endif
