/* Compares the named calls of imgproc_settings.h with the flat ones: both must give the same numbers, bytes and counts,
   over good and bad settings, layouts and lengths. Compares the calls that skip a tile by hand, and what they leave,
   with what looking at every tile says, Sauvola's narrow call with the wide one, and the calls of records with a plain
   rule and with bytes written by hand. Prints how many calls were compared, or the first difference. For C99 and
   C++11. */
#include <stdio.h>
#include <stdlib.h>
#include <string.h>
#include "imgproc_settings.h"

#define SIDE 40
#define ROOM (SIDE * SIDE)
#define BYTES (12 * ROOM)
#define U64S (9 * ROOM)

static uint64_t state = 1;
static unsigned compared = 0, refused = 0, readings[2] = {0, 0};

/* Returns a number below n. */
static size_t below(size_t n) {
    state = state * UINT64_C(6364136223846793005) + UINT64_C(1442695040888963407);
    return (size_t)(state >> 33) % n;
}

static void check(int holds, const char *what) {
    if (!holds) {
        printf("interface_test: %s, after %u calls\n", what, compared);
        exit(1);
    }
}

/* The buffers that a call is lent, twice: for the named call and for the flat one. */
static uint8_t picture[ROOM];
static uint8_t dst[2][ROOM], bytes[2][BYTES], thresholds[2][ROOM], skips[2][ROOM];
static uint64_t u64s[2][U64S];
static uint32_t u32s[2][U64S];
static uint16_t open_tiles[2][ROOM];

static void fill(void) {
    size_t i;
    for (i = 0; i < ROOM; i++) {
        picture[i] = (uint8_t)below(256);
        dst[0][i] = dst[1][i] = (uint8_t)below(256);
        thresholds[0][i] = thresholds[1][i] = (uint8_t)below(256);
        skips[0][i] = skips[1][i] = (uint8_t)(below(2) * below(256));
        open_tiles[0][i] = open_tiles[1][i] = (uint16_t)(below(2) * below(65536));
    }
    memset(bytes, (int)below(256), sizeof bytes);
    memset(u64s, (int)below(256), sizeof u64s);
    memset(u32s, (int)below(256), sizeof u32s);
}

static void same(uint32_t named, uint32_t flat, const char *what) {
    compared++;
    if (flat != IMGPROC_ACCEPTED) refused++;
    check(named == flat, what);
    check(memcmp(dst[0], dst[1], sizeof dst[0]) == 0, what);
    check(memcmp(bytes[0], bytes[1], sizeof bytes[0]) == 0, what);
    check(memcmp(u64s[0], u64s[1], sizeof u64s[0]) == 0, what);
    check(memcmp(u32s[0], u32s[1], sizeof u32s[0]) == 0, what);
    check(memcmp(thresholds[0], thresholds[1], sizeof thresholds[0]) == 0, what);
    check(memcmp(skips[0], skips[1], sizeof skips[0]) == 0, what);
    check(memcmp(open_tiles[0], open_tiles[1], sizeof open_tiles[0]) == 0, what);
}

/* Blanks tile (i, j), or clears it if skip is 0, by the named call and by the flat one. Checks that an accepted call
   sets the tile's byte and counts its row, and that no other byte or number changes. Returns the answer. */
static uint32_t set_skip(const struct imgproc_grid *grid, uint8_t skip, size_t skips_len, size_t rows, size_t i,
                         size_t j) {
    static uint8_t left[ROOM];
    static uint16_t counts[ROOM];
    const struct imgproc_bytes lent_skips = {skips[0], skips_len};
    const struct imgproc_open_tiles lent_open = {open_tiles[0], rows};
    uint32_t named, flat;
    size_t t;
    memcpy(left, skips[0], sizeof left);
    memcpy(counts, open_tiles[0], sizeof counts);
    if (skip) {
        named = imgproc_grid_blank_tile(grid, lent_skips, lent_open, i, j);
        flat = imgproc_blank_tile(grid->width, grid->height, grid->tile_width, grid->tile_height, grid->tiles_x,
                                  grid->tiles_y, skips[1], skips_len, open_tiles[1], rows, i, j);
    } else {
        named = imgproc_grid_clear_tile(grid, lent_skips, lent_open, i, j);
        flat = imgproc_clear_tile(grid->width, grid->height, grid->tile_width, grid->tile_height, grid->tiles_x,
                                  grid->tiles_y, skips[1], skips_len, open_tiles[1], rows, i, j);
    }
    same(named, flat, skip ? "imgproc_grid_blank_tile" : "imgproc_grid_clear_tile");
    if (flat == IMGPROC_ACCEPTED) {
        left[j * grid->tiles_x + i] = skip;
        for (counts[j] = 0, t = 0; t < grid->tiles_x; t++)
            if (left[j * grid->tiles_x + t] == 0)
                counts[j]++;
    }
    check(memcmp(left, skips[1], sizeof left) == 0, "the skips after a tile was blanked or cleared");
    check(memcmp(counts, open_tiles[1], sizeof counts) == 0, "the counts after a tile was blanked or cleared");
    return flat;
}

/* Asks for the tile row of row y by the named call and by the flat one, and returns the answer. */
static uint32_t row_all_skip(const struct imgproc_grid *grid, size_t rows, size_t y, uint8_t *value) {
    const struct imgproc_open_tiles lent_open = {open_tiles[0], rows};
    uint8_t other = *value;
    const uint32_t named = imgproc_grid_row_all_skip(grid, lent_open, y, value);
    const uint32_t flat = imgproc_row_all_skip(grid->width, grid->height, grid->tile_width, grid->tile_height,
                                               grid->tiles_x, grid->tiles_y, open_tiles[1], rows, y, &other);
    same(named, flat, "imgproc_grid_row_all_skip");
    check(*value == other, "a row's skip");
    return flat;
}

/* Blanks and clears tiles of a grid that was built, and checks each time that every row is answered as looking at every
   tile answers it. */
static void blank_and_clear(const struct imgproc_grid *grid) {
    const size_t tiles = grid->tiles_x * grid->tiles_y;
    int calls;
    for (calls = 0; calls < 6; calls++) {
        const size_t i = below(grid->tiles_x + 1), j = below(grid->tiles_y + 1);
        const int inside = i < grid->tiles_x && j < grid->tiles_y;
        size_t y, t;
        /* A false number of the row does no harm. */
        if (inside && below(2))
            open_tiles[0][j] = open_tiles[1][j] = (uint16_t)below(65536);
        check(set_skip(grid, below(3) != 0, tiles, grid->tiles_y, i, j) ==
                  (uint32_t)(inside ? IMGPROC_ACCEPTED : IMGPROC_OUTSIDE_PICTURE), "a tile inside or outside");
        for (y = 0; y < grid->height; y++) {
            uint8_t value = 9, all = 1;
            for (t = 0; t < grid->tiles_x; t++)
                if (skips[0][y / grid->tile_height * grid->tiles_x + t] == 0)
                    all = 0;
            check(row_all_skip(grid, grid->tiles_y, y, &value) == IMGPROC_ACCEPTED && value == all,
                  "a row is answered as looking at every tile answers it");
        }
    }
}

/* Returns the answer of a call to a grid: the first reason that fits. */
static uint32_t first_of(int bad_grid, int short_buffer, int outside) {
    if (bad_grid)
        return IMGPROC_INVALID_CONFIGURATION;
    if (short_buffer)
        return IMGPROC_GRID_BUFFER_TOO_SMALL;
    return outside ? IMGPROC_OUTSIDE_PICTURE : IMGPROC_ACCEPTED;
}

/* Checks each reason to refuse these calls alone, and of several the first. */
static void check_blanking(void) {
    /* The first is good. */
    static const struct imgproc_grid grids[] = {
        {20, 15, 4, 5, 5, 3}, {0, 15, 4, 5, 0, 3}, {20, 0, 4, 5, 5, 0}, {4097, 15, 4, 5, 1025, 3},
        {20, 4097, 4, 5, 5, 820}, {20, 15, 0, 5, 5, 3}, {20, 15, 4, 0, 5, 3}, {20, 15, 4, 5, 4, 3},
        {20, 15, 4, 5, 6, 3}, {20, 15, 4, 5, 5, 2}, {20, 15, 4, 5, 5, 4}, {20, 15, 4, 5, SIZE_MAX, SIZE_MAX}};
    static const size_t lengths[] = {15, 14, 0, 16}, rows[] = {3, 2, 0, 4};
    static const size_t columns[] = {0, 4, 5, SIZE_MAX}, lines[] = {0, 2, 3, SIZE_MAX}, ys[] = {0, 14, 15, SIZE_MAX};
    size_t g, a, b, c, d;
    for (g = 0; g < sizeof grids / sizeof *grids; g++)
        for (b = 0; b < 4; b++) {
            fill();
            for (d = 0; d < 4; d++) {
                const uint32_t first = first_of(g != 0, rows[b] < 3, ys[d] >= 15);
                uint8_t value = 9;
                check(row_all_skip(&grids[g], rows[b], ys[d], &value) == first, "a row's answer");
                check(value == (first != IMGPROC_ACCEPTED ? 9 : open_tiles[0][ys[d] / 5] == 0), "a row's value");
            }
            for (a = 0; a < 4; a++)
                for (c = 0; c < 4; c++)
                    for (d = 0; d < 4; d++) {
                        const uint32_t first =
                            first_of(g != 0, lengths[a] < 15 || rows[b] < 3, columns[c] >= 5 || lines[d] >= 3);
                        check(set_skip(&grids[g], 1, lengths[a], rows[b], columns[c], lines[d]) == first, "blanking");
                        check(set_skip(&grids[g], 0, lengths[a], rows[b], columns[c], lines[d]) == first, "clearing");
                    }
        }
}

/* A picture in which windows can have too many pixels, and what Sauvola's calls are lent for it: twice for the narrow
   call, by name and flat, and once for the wide one. `blank` and `untouched` hold what is there before a call. */
#define LARGE (400 * 404)
#define TABLES (2 * 401 * 401)
static uint8_t large[LARGE], marked[3][LARGE], blank[LARGE];
static uint32_t narrow_tables[2][TABLES + 1], untouched[TABLES + 1];
static uint64_t wide_tables[TABLES];

/* Makes the narrow call by name and flat, and returns its answer. Checks that nothing changes if it is refused, and
   else that no byte outside the rows and no number behind the workspace changes. */
static uint32_t narrow(struct imgproc_source src, struct imgproc_destination to,
                       const struct imgproc_sauvola_settings *s, size_t len) {
    const struct imgproc_u32s lent_u32s = {narrow_tables[0], len};
    uint32_t named, flat;
    size_t i, kept = 0;
    memset(blank, 77, sizeof blank);
    memset(marked, 77, sizeof marked);
    memset(untouched, 88, sizeof untouched);
    memset(narrow_tables, 88, sizeof narrow_tables);
    to.data = marked[0];
    named = imgproc_binarize_narrow(src, to, s, lent_u32s);
    flat = imgproc_sauvola_narrow_into(src.data, src.len, src.width, src.height, src.stride, marked[1], to.len,
                                       to.width, to.height, to.stride, s->radius, s->k_milli, s->dynamic_range,
                                       s->dark_value, s->light_value, narrow_tables[1], len);
    compared++;
    check(named == flat, "imgproc_binarize_narrow");
    check(memcmp(marked[0], marked[1], sizeof marked[0]) == 0, "imgproc_binarize_narrow's destination");
    if (flat == IMGPROC_ACCEPTED) {
        kept = len;
        for (i = 0; i < LARGE; i++)
            check(marked[1][i] == 77 || (i / to.stride < to.height && i % to.stride < to.width),
                  "a byte outside the rows after imgproc_sauvola_narrow_into");
    } else {
        refused++;
        check(memcmp(marked[1], blank, sizeof blank) == 0, "a refused imgproc_sauvola_narrow_into changes a byte");
    }
    for (i = 0; i < 2; i++)
        check(memcmp(narrow_tables[i] + kept, untouched + kept, (TABLES + 1 - kept) * sizeof *untouched) == 0,
              "imgproc_sauvola_narrow_into changes a number that it must not");
    return flat;
}

/* Makes the narrow call on a picture of bytes that are at least `least`, and checks its answer: 12 if the largest
   window has more than IMGPROC_MAX_WINDOW pixels, even if the workspace is short. The wide call takes every window, and
   has to write the same bytes. Returns the answer. */
static uint32_t compare_widths(size_t width, size_t height, size_t radius, uint8_t least) {
    const struct imgproc_sauvola_settings s = {radius, (uint32_t)below(1001), (uint32_t)(1 + below(200)), 0, 255};
    const size_t room = imgproc_sauvola_u32s(width, height), side = radius < 4096 ? 2 * radius + 1 : 8193;
    const size_t pixels = (side < width ? side : width) * (side < height ? side : height);
    const uint32_t expected = pixels > IMGPROC_MAX_WINDOW ? IMGPROC_WINDOW_TOO_LARGE : IMGPROC_ACCEPTED;
    const struct imgproc_u64s lent_u64s = {wide_tables, TABLES};
    struct imgproc_source src = {large, LARGE, width, height, width};
    struct imgproc_destination to = {marked[2], LARGE, width, height, width};
    size_t i;
    src.stride += below(4);
    to.stride += below(4);
    for (i = 0; i < LARGE; i++)
        large[i] = (uint8_t)(least + below(256u - least));
    check(room == 2 * (width + 1) * (height + 1) && room <= TABLES, "imgproc_sauvola_u32s");
    check(narrow(src, to, &s, room - 1) ==
              (expected != IMGPROC_ACCEPTED ? expected : (uint32_t)IMGPROC_WORKSPACE_TOO_SMALL),
          "a workspace that is one number short");
    check(narrow(src, to, &s, room) == expected, "the limit of a window");
    check(imgproc_binarize(src, to, &s, lent_u64s) == IMGPROC_ACCEPTED, "the wide call takes every window");
    check(expected != IMGPROC_ACCEPTED || memcmp(marked[1], marked[2], sizeof marked[1]) == 0,
          "imgproc_sauvola_narrow_into does not write what imgproc_sauvola_into writes");
    return expected;
}

/* Checks the limit of a window at its edge and around it, and that the bytes are those of the wide call. The squares of a
   bright picture of 75,000 pixels or more add up to more than 32 bits hold. */
static void check_windows(void) {
    static const struct {
        size_t width, height, radius;
        uint32_t answer;
    } cases[] = {
        /* The whole picture is 66,049, 66,051, 66,052 and 65,536 pixels, and one column or row more. */
        {257, 257, 128, 0}, {257, 257, 129, 0}, {257, 257, SIZE_MAX, 0}, {257, 258, SIZE_MAX, 12},
        {369, 179, 184, 0}, {369, 179, SIZE_MAX, 0}, {179, 369, 184, 0}, {196, 337, 168, 12}, {337, 196, 168, 12},
        {196, 337, 167, 0}, {4096, 16, SIZE_MAX, 0}, {4096, 17, 2048, 12}, {16, 4096, 4096, 0}, {17, 4096, 2048, 12},
        /* One side is cut. */
        {400, 179, 184, 0}, {400, 179, 185, 12}, {179, 400, 184, 0}, {179, 400, 185, 12}, {400, 196, 168, 12},
        {400, 196, 167, 0}, {196, 400, 168, 12}, {196, 400, 167, 0},
        /* No side is cut: 257 x 257 pixels and 259 x 259. */
        {300, 300, 128, 0}, {300, 300, 129, 12}, {400, 400, 128, 0}, {400, 400, 129, 12},
        /* 2 * radius + 1 does not fit into 64 bits, or just fits. */
        {1, 1, SIZE_MAX, 0}, {1, 1, 1, 0}, {300, 300, SIZE_MAX, 12}, {300, 300, SIZE_MAX / 2, 12},
        {300, 300, SIZE_MAX / 2 + 1, 12}, {300, 300, SIZE_MAX / 2 + 2, 12}, {300, 300, SIZE_MAX / 2 + 9, 12}};
    static const uint8_t least[] = {0, 240, 255};
    size_t i, j, seen[2] = {0, 0};
    check(IMGPROC_MAX_WINDOW == 369 * 179 && IMGPROC_MAX_WINDOW + 1 == 196 * 337, "IMGPROC_MAX_WINDOW");
    for (i = 0; i < sizeof cases / sizeof *cases; i++)
        for (j = 0; j < sizeof least; j++)
            check(compare_widths(cases[i].width, cases[i].height, cases[i].radius, least[j]) == cases[i].answer,
                  "a case of the limit of a window");
    for (i = 0; i < 60; i++)
        seen[compare_widths(200 + below(201), 200 + below(201), 80 + below(101), least[i % 3]) == IMGPROC_ACCEPTED]++;
    check(seen[0] > 10 && seen[1] > 10, "too few windows of one kind");
}

/* Checks each reason to refuse the narrow call alone, and of several the first. */
static void check_narrow(void) {
    size_t a, b, c, d, e, f;
    for (a = 0; a < 5; a++)
        for (b = 0; b < 5; b++)
            for (c = 0; c < 2; c++)
                for (d = 0; d < 4; d++)
                    for (e = 0; e < 2; e++)
                        for (f = 0; f < 3; f++) {
                            struct imgproc_sauvola_settings s = IMGPROC_SAUVOLA_DEFAULTS;
                            struct imgproc_source src = {large, 301 * 299 + 300, 300, 300, 301};
                            struct imgproc_destination to = {marked[0], 302 * 299 + 300, 300, 300, 302};
                            const size_t room = 2 * 301 * 301, lengths[] = {room, room - 1, 0};
                            const size_t first[] = {a, b, c ? 5u : 0, d ? 7u : 0, e ? 12u : 0, f ? 8u : 0};
                            size_t i = 0;
                            /* a and b are the numbers of the layouts' refusals. */
                            if (c) to.height -= 1;
                            if (a == 1) src.height = 0;
                            if (a == 2) src.stride = src.width - 1;
                            if (a == 3) src.len -= 1;
                            if (a == 4) src.width = src.stride = src.len = 4097, src.height = 1;
                            if (b == 1) to.width = 0;
                            if (b == 2) to.stride = to.width - 1;
                            if (b == 3) to.len = to.stride * (to.height - 1) + to.width - 1;
                            if (b == 4) to.height = to.len = 4097, to.width = to.stride = 1;
                            s.radius = e ? 129 : 128;
                            if (d == 1) s.radius = 0;
                            if (d == 2) s.k_milli = 1001;
                            if (d == 3) s.dynamic_range = 0;
                            while (i < 5 && first[i] == 0)
                                i++;
                            check(narrow(src, to, &s, lengths[f]) == first[i], "a reason to refuse the narrow call");
                        }
}

/* A record in which no two fields are the same, and its bytes, written by hand. */
static const struct imgproc_record worked = {0x0a1b2c3d, 0x4e5f, 1929, 1588, {987426, 1354701, 721125, 0x89abcdef}};
static const uint8_t worked_bytes[IMGPROC_RECORD_BYTES] = {
    0x52, 0x31, 0x0a, 0x1b, 0x2c, 0x3d, 0x4e, 0x5f, 0x07, 0x89, 0x06, 0x34, 0x00, 0x0f, 0x11, 0x22,
    0x00, 0x14, 0xab, 0xcd, 0x00, 0x0b, 0x00, 0xe5, 0x89, 0xab, 0xcd, 0xef};

/* The number of pixels of a picture of 40 x 30, and powers of two. */
#define AREA UINT64_C(1200)
#define TWO_32 (UINT64_C(1) << 32)
#define TWO_63 (UINT64_C(1) << 63)

/* Returns a record of flask 1 and pass 2. */
static struct imgproc_record record_of(size_t width, size_t height, uint64_t dark, uint64_t light, uint64_t skipped,
                                       uint64_t comparisons) {
    struct imgproc_record record = {1, 2, 0, 0, {0, 0, 0, 0}};
    record.width = width;
    record.height = height;
    record.counts.dark = dark;
    record.counts.light = light;
    record.counts.skipped = skipped;
    record.counts.comparisons = comparisons;
    return record;
}

static int same_records(const struct imgproc_record *a, const struct imgproc_record *b) {
    return a->flask == b->flask && a->pass == b->pass && a->width == b->width && a->height == b->height &&
           a->counts.dark == b->counts.dark && a->counts.light == b->counts.light &&
           a->counts.skipped == b->counts.skipped && a->counts.comparisons == b->counts.comparisons;
}

/* Puts the lowest `room` bytes of a number from `at` on, the highest first. */
static void put(uint8_t *at, uint64_t number, size_t room) {
    while (room-- > 0) {
        at[room] = (uint8_t)(number & 255);
        number >>= 8;
    }
}

/* Puts the bytes of a record, whose values may be bad. */
static void put_record(uint8_t *at, const struct imgproc_record *r) {
    put(at, 0x5231, 2);
    put(at + 2, r->flask, 4);
    put(at + 6, r->pass, 2);
    put(at + 8, r->width, 2);
    put(at + 10, r->height, 2);
    put(at + 12, r->counts.dark, 4);
    put(at + 16, r->counts.light, 4);
    put(at + 20, r->counts.skipped, 4);
    put(at + 24, r->counts.comparisons, 4);
}

/* Returns the answer of a call to a record: the first reason that fits. No sum here wraps. */
static uint32_t record_answer(int no_record, const struct imgproc_record *r) {
    const uint64_t side = IMGPROC_MAX_SIDE, area = side * side;
    const struct imgproc_counts *c = &r->counts;
    if (no_record)
        return IMGPROC_NO_RECORD;
    if (r->width < 1 || r->width > side || r->height < 1 || r->height > side)
        return IMGPROC_BAD_RECORD;
    if (c->dark > area || c->light > area || c->skipped > area ||
        c->dark + c->light + c->skipped != (uint64_t)r->width * r->height)
        return IMGPROC_BAD_RECORD;
    return c->comparisons < TWO_32 ? IMGPROC_ACCEPTED : IMGPROC_BAD_RECORD;
}

#define RECORD_ROOM 44

/* Writes a record into len bytes, by the named call and by the flat one, and returns the answer. Checks that a refused
   call changes no byte, and an accepted one only the record's. */
static uint32_t write_record(const struct imgproc_record *r, size_t len) {
    static uint8_t room[2][RECORD_ROOM], expected[RECORD_ROOM];
    const struct imgproc_bytes lent = {room[0], len};
    const struct imgproc_record before = *r;
    uint32_t named, flat;
    memset(room, 0xaa, sizeof room);
    memset(expected, 0xaa, sizeof expected);
    named = imgproc_write_record(r, lent);
    flat = imgproc_record_write(r->flask, r->pass, r->width, r->height, r->counts.dark, r->counts.light,
                                r->counts.skipped, r->counts.comparisons, room[1], len);
    same(named, flat, "imgproc_write_record");
    check(flat == record_answer(len < 28, r), "the answer of imgproc_record_write");
    if (flat == IMGPROC_ACCEPTED)
        put_record(expected, r);
    check(memcmp(room[0], expected, sizeof expected) == 0 && memcmp(room[1], expected, sizeof expected) == 0,
          "the bytes that imgproc_record_write leaves");
    check(same_records(r, &before), "imgproc_write_record changes the record");
    return flat;
}

/* Reads a record out of len bytes, by the named call and by the flat one, and returns the answer. `held` is the record
   that the bytes hold after their mark. Checks that a refused call changes no number, and that no byte changes. */
static uint32_t read_record(const uint8_t *source, size_t len, const struct imgproc_record *held) {
    static uint8_t before[RECORD_ROOM];
    const struct imgproc_record other = {11, 12, 13, 14, {15, 16, 17, 18}};
    struct imgproc_record found = other, flatly = other;
    uint32_t named, flat;
    memcpy(before, source, len);
    named = imgproc_read_record(source, len, &found);
    flat = imgproc_record_read(source, len, &flatly.flask, &flatly.pass, &flatly.width, &flatly.height,
                               &flatly.counts.dark, &flatly.counts.light, &flatly.counts.skipped,
                               &flatly.counts.comparisons);
    same(named, flat, "imgproc_read_record");
    check(flat == record_answer(len < 28 || source[0] != 0x52 || source[1] != 0x31, held),
          "the answer of imgproc_record_read");
    check(same_records(&found, flat == IMGPROC_ACCEPTED ? held : &other) && same_records(&found, &flatly),
          "the numbers that imgproc_record_read leaves");
    check(memcmp(before, source, len) == 0, "imgproc_record_read changes a byte");
    return flat;
}

/* Writes and reads a record whose numbers fit their fields, with every length from 0 to 40 and with other marks.
   Returns the answer where there are bytes enough. */
static uint32_t keep_record(const struct imgproc_record *r) {
    uint8_t bytes[RECORD_ROOM];
    const uint32_t answer = record_answer(0, r);
    size_t len;
    int bit;
    memset(bytes, (int)below(256), sizeof bytes);
    put_record(bytes, r);
    for (len = 0; len <= 40; len++) {
        const uint32_t first = len < 28 ? (uint32_t)IMGPROC_NO_RECORD : answer;
        check(write_record(r, len) == first, "a length of a destination");
        check(read_record(bytes, len, r) == first, "a length of a source");
    }
    for (bit = 0; bit < 16; bit++) {
        bytes[bit / 8] ^= (uint8_t)(1 << bit % 8);
        check(read_record(bytes, 28 + below(9), r) == IMGPROC_NO_RECORD, "another mark");
        bytes[bit / 8] ^= (uint8_t)(1 << bit % 8);
    }
    bytes[0] = 0x31, bytes[1] = 0x52;
    check(read_record(bytes, 28, r) == IMGPROC_NO_RECORD, "the mark's bytes exchanged");
    return answer;
}

/* Checks the worked record against its 28 bytes. */
static void check_worked(void) {
    uint8_t bytes[40];
    struct imgproc_record found = record_of(0, 0, 0, 0, 0, 0);
    const struct imgproc_bytes lent = {bytes, sizeof bytes};
    size_t i;
    check(IMGPROC_RECORD_BYTES == 28 && IMGPROC_NO_RECORD == 13 && IMGPROC_BAD_RECORD == 14, "the numbers of records");
    memset(bytes, 0xaa, sizeof bytes);
    check(imgproc_write_record(&worked, lent) == IMGPROC_ACCEPTED, "the worked record is written");
    check(memcmp(bytes, worked_bytes, 28) == 0, "the worked record's bytes");
    for (i = 28; i < sizeof bytes; i++)
        check(bytes[i] == 0xaa, "a byte after the worked record");
    check(imgproc_read_record(worked_bytes, 28, &found) == IMGPROC_ACCEPTED, "the worked record is read");
    check(same_records(&found, &worked), "the worked record's numbers");
    check(keep_record(&worked) == IMGPROC_ACCEPTED, "the worked record is kept");
}

/* Checks each reason to refuse a record. */
static void check_records(void) {
    /* Numbers that fit their fields: limits, and then a side that is out of range or counts that do not add up, also if
       they do modulo 2^32. */
    static const struct {
        size_t width, height;
        uint64_t dark, light, skipped, comparisons;
        uint32_t answer;
    } fit[] = {
        {40, 30, 480, 620, 100, 23520, 0}, {1, 1, 0, 0, 1, 0, 0}, {4096, 4096, 0, 1 << 24, 0, UINT32_MAX, 0},
        {4096, 1, 1, 2, 4093, 9, 0}, {1, 4096, 4096, 0, 0, 9, 0},
        {0, 30, 0, 0, 0, 9, 14}, {40, 0, 0, 0, 0, 9, 14}, {0, 0, 0, 0, 0, 9, 14}, {4097, 1, 4097, 0, 0, 9, 14},
        {1, 4097, 0, 4097, 0, 9, 14}, {65535, 2, 0, 0, 131070, 9, 14}, {2, 65535, 131070, 0, 0, 9, 14},
        {40, 30, 481, 620, 100, 9, 14}, {40, 30, 479, 620, 100, 9, 14}, {40, 30, 480, 621, 100, 9, 14},
        {40, 30, 480, 619, 100, 9, 14}, {40, 30, 480, 620, 101, 9, 14}, {40, 30, 480, 620, 99, 9, 14},
        {41, 30, 480, 620, 100, 9, 14}, {40, 29, 480, 620, 100, 9, 14}, {40, 30, 0, 0, 0, 9, 14},
        {40, 30, UINT32_MAX, AREA + 1, 0, 9, 14}, {40, 30, AREA + 1, 0, UINT32_MAX, 9, 14},
        {40, 30, UINT32_MAX, UINT32_MAX, AREA + 2, 9, 14}, {40, 30, TWO_32 / 2, TWO_32 / 2 + AREA, 0, 9, 14}};
    /* Numbers that do not fit, and would be good if they were cut to their fields, or if a sum or a product wrapped. */
    static const struct {
        size_t width, height;
        uint64_t dark, light, skipped, comparisons;
    } large[] = {
        {40, 30, 480, 620, 100, TWO_32}, {40, 30, 480, 620, 100, TWO_32 + 23520}, {40, 30, 480, 620, 100, UINT64_MAX},
        {65536 + 40, 30, 480, 620, 100, 9}, {40, 65536 + 30, 480, 620, 100, 9},
        {65537, 30, 30, 0, 0, 9}, {65537, 30, 65537 * 30, 0, 0, 9}, {40, 65537, 0, 65537 * 40, 0, 9},
        {(size_t)TWO_32 + 40, 30, 480, 620, 100, 9}, {40, (size_t)TWO_32 + 30, 480, 620, 100, 9},
        {SIZE_MAX - 65535 + 40, 30, 480, 620, 100, 9}, {40, SIZE_MAX - 65535 + 30, 480, 620, 100, 9},
        {SIZE_MAX, SIZE_MAX, 1, 0, 0, 9}, {(size_t)TWO_32, (size_t)TWO_32, 0, 0, 0, 9},
        {(size_t)TWO_63, 2, 0, 0, 0, 9}, {(size_t)TWO_63 + 40, 30, 480, 620, 100, 9},
        {40, 30, TWO_32 + 480, 620, 100, 9}, {40, 30, 480, TWO_32 + 620, 100, 9}, {40, 30, 480, 620, TWO_32 + 100, 9},
        {40, 30, UINT64_MAX, AREA + 1, 0, 9}, {40, 30, AREA + 1, UINT64_MAX, 0, 9}, {40, 30, AREA, 1, UINT64_MAX, 9},
        {40, 30, 0, UINT64_MAX, AREA + 1, 9}, {40, 30, TWO_63, TWO_63 + AREA, 0, 9},
        {40, 30, TWO_63, AREA, TWO_63, 9}, {40, 30, UINT64_MAX, UINT64_MAX, AREA + 2, 9}};
    size_t i, len;
    for (i = 0; i < sizeof fit / sizeof *fit; i++) {
        const struct imgproc_record r =
            record_of(fit[i].width, fit[i].height, fit[i].dark, fit[i].light, fit[i].skipped, fit[i].comparisons);
        check(keep_record(&r) == fit[i].answer, "a case of a record");
    }
    for (i = 0; i < sizeof large / sizeof *large; i++) {
        const struct imgproc_record r = record_of(large[i].width, large[i].height, large[i].dark, large[i].light,
                                                  large[i].skipped, large[i].comparisons);
        for (len = 0; len <= 40; len++)
            check(write_record(&r, len) == (uint32_t)(len < 28 ? IMGPROC_NO_RECORD : IMGPROC_BAD_RECORD),
                  "a number that does not fit");
    }
}

/* Returns any 32 bits. */
static uint32_t any_u32(void) {
    const uint32_t high = (uint32_t)below(65536);
    return high << 16 | (uint32_t)below(65536);
}

/* Writes and reads records of many kinds. */
static void check_some_records(void) {
    size_t i, seen[2] = {0, 0};
    for (i = 0; i < 2000; i++) {
        const size_t width = 1 + below(IMGPROC_MAX_SIDE), height = 1 + below(IMGPROC_MAX_SIDE), area = width * height;
        const size_t dark = below(area + 1), light = below(area - dark + 1);
        struct imgproc_record r = record_of(width, height, dark, light, area - dark - light, 0);
        uint8_t bytes[RECORD_ROOM];
        r.flask = any_u32();
        r.pass = (uint16_t)below(65536);
        r.counts.comparisons = any_u32();
        switch (below(12)) {
        case 0: r.width += 1; break;
        case 1: r.height -= 1; break;
        case 2: r.counts.dark ^= UINT64_C(1) << below(32); break;
        case 3: r.counts.light ^= UINT64_C(1) << below(32); break;
        case 4: r.counts.skipped ^= UINT64_C(1) << below(32); break;
        default: break;
        }
        memset(bytes, (int)below(256), sizeof bytes);
        put_record(bytes, &r);
        seen[write_record(&r, 28 + below(9)) == IMGPROC_ACCEPTED]++;
        read_record(bytes, 28 + below(9), &r);
        /* The same with one bit of 64 changed. */
        r.counts.comparisons ^= UINT64_C(1) << below(64);
        write_record(&r, 28);
        r.counts.skipped ^= UINT64_C(1) << below(64);
        write_record(&r, 28);
    }
    check(seen[0] > 500 && seen[1] > 500, "too few records of one kind");
}

/* Keeps a reading as a record, which has to hold its numbers. */
static void keep_reading(const struct imgproc_source *src, const struct imgproc_counts *counts) {
    const struct imgproc_record r = {3, (uint16_t)below(65536), src->width, src->height, *counts};
    uint8_t bytes[IMGPROC_RECORD_BYTES];
    const struct imgproc_bytes lent = {bytes, sizeof bytes};
    check(imgproc_write_record(&r, lent) == IMGPROC_ACCEPTED, "a reading is kept");
    check(read_record(bytes, sizeof bytes, &r) == IMGPROC_ACCEPTED, "a reading is read back");
}

/* Returns good settings, or settings with one number out of range. */
static struct imgproc_reading_settings some_settings(void) {
    struct imgproc_reading_settings s = IMGPROC_READING_DEFAULTS;
    s.division.structuring_element = 3 + 2 * below(6);
    s.division.target_luma = (uint8_t)below(256);
    s.division.denominator_floor = (uint8_t)(1 + below(255));
    s.opening_kernel = 3 + 2 * below(4);
    s.grid.tile_width = 1 + below(9);
    s.grid.tile_height = 1 + below(9);
    s.grid.neighborhood_radius = below(3);
    s.grid.threshold_offset = (int16_t)((int)below(400) - 200);
    s.grid.contrast_floor = (uint8_t)below(200);
    s.grid.method = below(2) ? IMGPROC_MIDRANGE : IMGPROC_SAUVOLA;
    s.grid.k = 0.25;
    s.grid.dynamic_range = 100.5;
    s.sauvola.radius = 1 + below(9);
    s.sauvola.k_milli = (uint32_t)below(1001);
    s.sauvola.dynamic_range = (uint32_t)(1 + below(200));
    s.sauvola.dark_value = (uint8_t)below(256);
    s.sauvola.light_value = (uint8_t)below(256);
    switch (below(24)) {
    case 0: s.division.structuring_element = 4; break;
    case 1: s.division.denominator_floor = 0; break;
    case 2: s.opening_kernel = 1; break;
    case 3: s.grid.tile_width = 0; break;
    case 4: s.grid.tile_height = 0; break;
    case 5: s.grid.method = 2; break;
    case 6: s.grid.method = IMGPROC_SAUVOLA; s.grid.dynamic_range = 0.0; break;
    case 7: s.sauvola.radius = 0; break;
    case 8: s.sauvola.k_milli = 1001; break;
    case 9: s.sauvola.dynamic_range = 0; break;
    default: break;
    }
    return s;
}

/* Counts the open tiles of a picture that is flattened and opened as in a reading. */
static uint16_t counted[ROOM];

static void count_opened(const struct imgproc_source *src, const struct imgproc_reading_settings *s) {
    static uint8_t raised[ROOM], opened[ROOM], workspace[BYTES], some_thresholds[ROOM], some_skips[ROOM];
    static uint64_t tiles[U64S];
    const size_t w = src->width, h = src->height, area = w * h;
    const struct imgproc_destination to = {raised, area, w, h, w};
    const struct imgproc_source from = {opened, area, w, h, w};
    const struct imgproc_bytes lent_bytes = {workspace, BYTES}, lent_thresholds = {some_thresholds, ROOM},
                               lent_skips = {some_skips, ROOM};
    const struct imgproc_u64s lent_u64s = {tiles, U64S};
    const struct imgproc_open_tiles lent_open = {counted, ROOM};
    struct imgproc_grid grid;
    uint64_t comparisons;
    check(imgproc_divide(*src, to, &s->division, lent_bytes, &comparisons) == IMGPROC_ACCEPTED &&
              imgproc_grayscale_open_into(raised, area, w, h, w, opened, area, w, h, w, s->opening_kernel, workspace,
                                          BYTES, &comparisons) == IMGPROC_ACCEPTED &&
              imgproc_build_grid(from, &s->grid, lent_u64s, lent_thresholds, lent_skips, lent_open, &grid) ==
                  IMGPROC_ACCEPTED,
          "the steps of a reading");
}

static void compare_calls(void) {
    const struct imgproc_reading_settings s = some_settings();
    struct imgproc_source src;
    struct imgproc_destination to;
    struct imgproc_bytes lent_bytes, lent_thresholds, lent_skips;
    struct imgproc_u64s lent_u64s;
    struct imgproc_u32s lent_u32s;
    struct imgproc_open_tiles lent_open;
    struct imgproc_counts counts, left;
    struct imgproc_grid grid, sizes;
    uint64_t comparisons[2] = {7, 7}, dark = 1, light = 2, skipped = 3, tally = 4;
    size_t tiles_x = 0, tiles_y = 0, x, y, off = below(16);
    uint8_t value[2] = {9, 9};
    uint32_t named, flat, answer;
    static uint8_t before[ROOM], wide[ROOM];

    src.data = picture;
    src.width = 1 + below(SIDE / 2);
    src.height = 1 + below(SIDE / 2);
    src.stride = src.width + below(5);
    src.len = src.stride * (src.height - 1) + src.width + below(3);
    to.data = dst[0];
    to.width = src.width;
    to.height = src.height;
    to.stride = to.width + below(5);
    to.len = to.stride * (to.height - 1) + to.width;
    if (off == 0) src.len = src.stride * (src.height - 1) + src.width - 1;
    if (off == 1) to.stride = to.width - 1;
    if (off == 2) to.width = 0;
    if (off == 3) to.height += 1, to.len += to.stride;
    lent_bytes.data = bytes[0];
    lent_u64s.data = u64s[0];
    lent_u32s.data = u32s[0];
    lent_thresholds.data = thresholds[0];
    lent_skips.data = skips[0];
    lent_thresholds.len = lent_skips.len = imgproc_tiles(src.width, src.height, &s.grid);
    lent_open.data = open_tiles[0];
    lent_open.len = imgproc_tile_rows(src.width, src.height, &s.grid);
    lent_open.len -= (off == 6 || off == 7) && lent_open.len != 0;

    /* Each workspace is as long as the header's function says, or one short: then the call returns 8 unless an earlier
       reason fits. The buffers of a grid too; then it returns 10. If off is 7, both a workspace and a buffer are
       short. */
    fill();
    lent_bytes.len = imgproc_division_bytes(src.width, src.height) - (off == 4);
    named = imgproc_divide(src, to, &s.division, lent_bytes, &comparisons[0]);
    flat = imgproc_background_divide_into(picture, src.len, src.width, src.height, src.stride, dst[1], to.len, to.width,
                                          to.height, to.stride, s.division.structuring_element,
                                          s.division.target_luma, s.division.denominator_floor, bytes[1],
                                          lent_bytes.len, &comparisons[1]);
    same(named, flat, "imgproc_divide");
    check(comparisons[0] == comparisons[1], "imgproc_divide's comparisons");
    check((flat == IMGPROC_WORKSPACE_TOO_SMALL) <= (off == 4), "imgproc_division_bytes");
    check(off != 4 || flat != IMGPROC_ACCEPTED, "imgproc_division_bytes is longer than needed");

    fill();
    memcpy(before, dst[0], sizeof before);
    lent_u64s.len = imgproc_sauvola_u64s(src.width, src.height) - (off == 4);
    named = imgproc_binarize(src, to, &s.sauvola, lent_u64s);
    flat = imgproc_sauvola_into(picture, src.len, src.width, src.height, src.stride, dst[1], to.len, to.width,
                                to.height, to.stride, s.sauvola.radius, s.sauvola.k_milli, s.sauvola.dynamic_range,
                                s.sauvola.dark_value, s.sauvola.light_value, u64s[1], lent_u64s.len);
    same(named, flat, "imgproc_binarize");
    check((flat == IMGPROC_WORKSPACE_TOO_SMALL) <= (off == 4), "imgproc_sauvola_u64s");
    check(off != 4 || flat != IMGPROC_ACCEPTED, "imgproc_sauvola_u64s is longer than needed");

    /* No window here is too large, so the narrow call answers and writes as the wide one. */
    memcpy(wide, dst[1], sizeof wide);
    memcpy(dst[0], before, sizeof before);
    memcpy(dst[1], before, sizeof before);
    answer = flat;
    lent_u32s.len = imgproc_sauvola_u32s(src.width, src.height) - (off == 4);
    named = imgproc_binarize_narrow(src, to, &s.sauvola, lent_u32s);
    flat = imgproc_sauvola_narrow_into(picture, src.len, src.width, src.height, src.stride, dst[1], to.len, to.width,
                                       to.height, to.stride, s.sauvola.radius, s.sauvola.k_milli,
                                       s.sauvola.dynamic_range, s.sauvola.dark_value, s.sauvola.light_value, u32s[1],
                                       lent_u32s.len);
    same(named, flat, "imgproc_binarize_narrow");
    check(flat == answer && memcmp(wide, dst[1], sizeof wide) == 0, "imgproc_binarize_narrow and imgproc_binarize");

    fill();
    memset(&grid, 77, sizeof grid);
    lent_u64s.len = imgproc_grid_u64s(src.width, src.height, &s.grid);
    lent_u64s.len -= (off == 4 || off == 7) && lent_skips.len != 0;
    lent_skips.len -= off == 5 && lent_skips.len != 0;
    named = imgproc_build_grid(src, &s.grid, lent_u64s, lent_thresholds, lent_skips, lent_open, &grid);
    flat = imgproc_tile_grid_build(picture, src.len, src.width, src.height, src.stride, s.grid.tile_width,
                                   s.grid.tile_height, s.grid.neighborhood_radius, s.grid.threshold_offset,
                                   s.grid.contrast_floor, s.grid.method, s.grid.k, s.grid.dynamic_range, u64s[1],
                                   lent_u64s.len, thresholds[1], lent_thresholds.len, skips[1], lent_skips.len,
                                   open_tiles[1], lent_open.len, &tiles_x, &tiles_y);
    same(named, flat, "imgproc_build_grid");
    check((flat == IMGPROC_WORKSPACE_TOO_SMALL) <= (off == 4 || off == 7), "imgproc_grid_u64s");
    check((flat == IMGPROC_GRID_BUFFER_TOO_SMALL) <= (off == 5 || off == 6), "imgproc_tiles, imgproc_tile_rows");
    check(off < 4 || off > 7 || flat != IMGPROC_ACCEPTED, "the lengths of a grid are longer than needed");
    if (flat == IMGPROC_ACCEPTED) {
        sizes = imgproc_grid_of(src.width, src.height, &s.grid);
        check(memcmp(&grid, &sizes, sizeof grid) == 0, "imgproc_grid_of");
        check(grid.width == src.width && grid.height == src.height && grid.tile_width == s.grid.tile_width &&
                  grid.tile_height == s.grid.tile_height && grid.tiles_x == tiles_x && grid.tiles_y == tiles_y,
              "the grid's sizes");
        x = below(src.width + 1);
        y = below(src.height + 1);
        named = imgproc_grid_threshold_at(&grid, lent_thresholds, x, y, &value[0]);
        flat = imgproc_threshold_at(src.width, src.height, s.grid.tile_width, s.grid.tile_height, tiles_x, tiles_y,
                                    thresholds[1], lent_thresholds.len, x, y, &value[1]);
        same(named, flat, "imgproc_grid_threshold_at");
        check(value[0] == value[1], "a threshold");
        named = imgproc_grid_is_skip(&grid, lent_skips, x, y, &value[0]);
        flat = imgproc_is_skip(src.width, src.height, s.grid.tile_width, s.grid.tile_height, tiles_x, tiles_y,
                               skips[1], lent_skips.len, x, y, &value[1]);
        same(named, flat, "imgproc_grid_is_skip");
        check(value[0] == value[1], "a skip");
        row_all_skip(&grid, lent_open.len, y, &value[0]);
        blank_and_clear(&grid);
    }

    fill();
    memcpy(counted, open_tiles[0], sizeof counted);
    lent_bytes.len = imgproc_reading_bytes(src.width, src.height, &s) - (off == 4 || off == 7);
    lent_u64s.len = imgproc_reading_u64s(src.width, src.height, &s) - (off == 5);
    counts.dark = 1, counts.light = 2, counts.skipped = 3, counts.comparisons = 4;
    left = counts;
    named = imgproc_read(src, to, &s, lent_bytes, lent_u64s, lent_open, &counts);
    flat = imgproc_reading(picture, src.len, src.width, src.height, src.stride, dst[1], to.len, to.width, to.height,
                           to.stride, s.division.structuring_element, s.division.target_luma,
                           s.division.denominator_floor, s.opening_kernel, s.grid.tile_width, s.grid.tile_height,
                           s.grid.neighborhood_radius, s.grid.threshold_offset, s.grid.contrast_floor, s.grid.method,
                           s.grid.k, s.grid.dynamic_range, s.sauvola.radius, s.sauvola.k_milli,
                           s.sauvola.dynamic_range, s.sauvola.dark_value, s.sauvola.light_value, bytes[1],
                           lent_bytes.len, u64s[1], lent_u64s.len, open_tiles[1], lent_open.len, &dark, &light,
                           &skipped, &tally);
    same(named, flat, "imgproc_read");
    check(counts.dark == dark && counts.light == light && counts.skipped == skipped && counts.comparisons == tally,
          "the counts of a reading");
    check((flat == IMGPROC_WORKSPACE_TOO_SMALL) <= (off == 4 || off == 5 || off == 7), "the lengths of a reading");
    check((flat == IMGPROC_GRID_BUFFER_TOO_SMALL) <= (off == 6), "the rows of a reading");
    check(off < 4 || off > 7 || flat != IMGPROC_ACCEPTED, "the lengths of a reading are longer than needed");
    readings[flat == IMGPROC_ACCEPTED]++;
    if (flat == IMGPROC_ACCEPTED) {
        check(dark + light + skipped == src.width * src.height, "the sum of the counts");
        count_opened(&src, &s);
        keep_reading(&src, &counts);
    } else
        check(memcmp(&counts, &left, sizeof counts) == 0, "a refused reading changes the counts");
    check(memcmp(counted, open_tiles[1], sizeof counted) == 0, "the counts of open tiles of a reading");
}

/* Checks that the defaults are the numbers of docs/BEHAVIOUR.md. */
static void compare_defaults(void) {
    const struct imgproc_reading_settings s = IMGPROC_READING_DEFAULTS;
    const struct imgproc_source src = {picture, 24 * 30, 24, 30, 24};
    const struct imgproc_destination to = {dst[0], 24 * 30, 24, 30, 24};
    const struct imgproc_bytes lent_bytes = {bytes[0], BYTES};
    const struct imgproc_u64s lent_u64s = {u64s[0], U64S};
    const struct imgproc_open_tiles lent_open = {open_tiles[0], ROOM};
    struct imgproc_counts counts;
    uint64_t dark, light, skipped, tally;
    uint32_t named, flat;
    fill();
    named = imgproc_read(src, to, &s, lent_bytes, lent_u64s, lent_open, &counts);
    flat = imgproc_reading(picture, 24 * 30, 24, 30, 24, dst[1], 24 * 30, 24, 30, 24, 31, 200, 8, 3, 16, 16, 1, 0, 12,
                           0, 0.0, 1.0, 8, 200, 128, 0, 255, bytes[1], BYTES, u64s[1], U64S, open_tiles[1], ROOM,
                           &dark, &light, &skipped, &tally);
    same(named, flat, "the defaults");
    check(counts.dark == dark && counts.light == light && counts.skipped == skipped && counts.comparisons == tally,
          "the defaults' counts");
    check(s.division.structuring_element == 31 && s.division.target_luma == 200 && s.division.denominator_floor == 8 &&
              s.opening_kernel == 3 && s.grid.tile_width == 16 && s.grid.tile_height == 16 &&
              s.grid.neighborhood_radius == 1 && s.grid.threshold_offset == 0 && s.grid.contrast_floor == 12 &&
              s.grid.method == 0 && s.sauvola.radius == 8 && s.sauvola.k_milli == 200 &&
              s.sauvola.dynamic_range == 128 && s.sauvola.dark_value == 0 && s.sauvola.light_value == 255,
          "a default");
}

/* Checks that the settings for a column are those of the binding's test for_column: element, neighbourhood, radius. */
static void check_columns(void) {
    static const size_t expected[][4] = {
        {0, 3, 1, 1},     {1, 3, 1, 1},       {2, 5, 1, 2},       {8, 17, 1, 10},         {16, 33, 1, 20},
        {17, 35, 2, 21},  {40, 81, 3, 50},    {319, 639, 20, 398}, {320, 641, 20, 400},   {4096, 8193, 256, 5120},
        {SIZE_MAX, 8193, 256, 5120}};
    size_t i;
    for (i = 0; i < sizeof expected / sizeof *expected; i++) {
        const struct imgproc_reading_settings s = imgproc_settings_for_column(expected[i][0]);
        const struct imgproc_reading_settings d = IMGPROC_READING_DEFAULTS;
        check(s.division.structuring_element == expected[i][1] && s.grid.neighborhood_radius == expected[i][2] &&
                  s.sauvola.radius == expected[i][3] && s.sauvola.k_milli == 130 && s.sauvola.dynamic_range == 48,
              "the settings for a column");
        check(s.division.target_luma == d.division.target_luma && s.opening_kernel == d.opening_kernel &&
                  s.grid.tile_width == d.grid.tile_width && s.grid.contrast_floor == d.grid.contrast_floor,
              "the settings for a column that stay");
    }
}

/* Checks that a length that does not fit is never a small number. */
static void check_lengths(void) {
    static const size_t sides[] = {0, 1, 2, 4096, 4097, SIZE_MAX / 16, SIZE_MAX / 9 + 1, SIZE_MAX / 2 + 1, SIZE_MAX};
    struct imgproc_reading_settings s = IMGPROC_READING_DEFAULTS;
    size_t i, j, t;
    for (i = 0; i < sizeof sides / sizeof *sides; i++)
        for (j = 0; j < sizeof sides / sizeof *sides; j++)
            for (t = 1; t < 4; t++) {
                const size_t w = sides[i], h = sides[j], most = SIZE_MAX / sizeof(uint64_t);
                const double pixels = (double)w * (double)h, table = 2 * ((double)w + 1) * ((double)h + 1);
                s.grid.tile_width = s.grid.tile_height = t == 3 ? SIZE_MAX : t;
                /* Doubles are exact enough: a wrapped length would be off by far more than their error. */
                check((double)imgproc_sweep_bytes(w, h) >= 6 * pixels * 0.99 || imgproc_sweep_bytes(w, h) == SIZE_MAX,
                      "imgproc_sweep_bytes wraps");
                check((double)imgproc_division_bytes(w, h) >= 7 * pixels * 0.99 ||
                          imgproc_division_bytes(w, h) == SIZE_MAX, "imgproc_division_bytes wraps");
                check((double)imgproc_reading_bytes(w, h, &s) >= 9 * pixels * 0.99 ||
                          imgproc_reading_bytes(w, h, &s) == SIZE_MAX, "imgproc_reading_bytes wraps");
                check((double)imgproc_sauvola_u64s(w, h) >= table * 0.99 || imgproc_sauvola_u64s(w, h) == most,
                      "imgproc_sauvola_u64s wraps");
                check((double)imgproc_sauvola_u32s(w, h) >= table * 0.99 || imgproc_sauvola_u32s(w, h) == most,
                      "imgproc_sauvola_u32s wraps");
                check((double)imgproc_reading_u64s(w, h, &s) >= table * 0.99 ||
                          imgproc_reading_u64s(w, h, &s) == most, "imgproc_reading_u64s wraps");
                check(imgproc_reading_u64s(w, h, &s) <= most && imgproc_grid_u64s(w, h, &s.grid) <= most &&
                          imgproc_tile_rows(w, h, &s.grid) <= SIZE_MAX / sizeof(uint16_t),
                      "a length in bytes wraps");
                check(t != 1 || imgproc_tile_rows(w, h, &s.grid) ==
                                    (h < SIZE_MAX / sizeof(uint16_t) ? h : SIZE_MAX / sizeof(uint16_t)),
                      "imgproc_tile_rows wraps");
                check(t != 1 || (double)imgproc_grid_u64s(w, h, &s.grid) >= 5 * pixels * 0.99 ||
                          imgproc_grid_u64s(w, h, &s.grid) == most, "imgproc_grid_u64s wraps");
            }
}

static void check_words(void) {
    uint32_t a, b;
    for (a = 0; a <= IMGPROC_BAD_RECORD; a++)
        for (b = 0; b < a; b++)
            check(strcmp(imgproc_refusal_words(a), imgproc_refusal_words(b)) != 0, "two refusals have the same words");
    check(strcmp(imgproc_refusal_words(11), imgproc_refusal_words(UINT32_MAX)) == 0 &&
              strcmp(imgproc_refusal_words(11), imgproc_refusal_words(15)) == 0,
          "the words of an unknown number");
}

int main(void) {
    int i;
    check_words();
    check_lengths();
    check_columns();
    compare_defaults();
    check_blanking();
    check_windows();
    check_narrow();
    check_worked();
    check_records();
    check_some_records();
    for (i = 0; i < 4000; i++)
        compare_calls();
    check(readings[0] > 1000 && readings[1] > 1000, "too few readings of one kind");
    printf("interface_test: %u calls agree, %u of them refused\n", compared, refused);
    return 0;
}
