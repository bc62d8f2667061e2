/* Draws a text to a PNG, in lines of at most WIDTH pixels, with a selection and a caret:
 *
 *     draw [--list] WIDTH FROM TO PICTURE FONT... < TEXT
 *
 * built by
 *
 *     cc -o draw examples/draw.c $(pkg-config --cflags --libs hordguli harfbuzz cairo-ft)
 *
 * HarfBuzz shapes each directional run: it joins letters, places marks and mirrors brackets. So HarfBuzz receives the
 * characters unmirrored and in logical order. A measured session has the advance of each character, in 1/64 pixel, and
 * finds the lines, the caret and the selection. Cairo draws the glyphs. A letter is drawn in the first FONT
 * that has it.
 *
 * The characters from position FROM up to TO are selected. The caret is after the last of them, or before FROM if there
 * are none. With --list, the program prints what it measures and draws. */
#include <cairo-ft.h>
#include <hb.h>
#include <hordguli.h>
#include <stdio.h>
#include <stdlib.h>
#include <string.h>

enum { SIZE = 26, HEIGHT = 44, MARGIN = 16 }; /* of the letters, a line and the border, in pixels */
enum { UNITS = 64 };                          /* of HarfBuzz and of the session, in a pixel */
enum { FONTS = 8, CHARACTERS = 20000, GLYPHS = 4 * CHARACTERS, SPANS = 100, BYTES = 1000000 };

static hordguli_session session = HORDGULI_SESSION_INIT;
static int is_listed;

static struct {
    hb_font_t *shaping;
    cairo_font_face_t *drawing;
} fonts[FONTS];
static size_t font_count;

/* A paragraph: its position, and its characters in logical order, with the level, the font and the script of each */
static size_t start, count;
static uint32_t characters[CHARACTERS];
static uint8_t levels[CHARACTERS];
static size_t font_of[CHARACTERS];
static hb_script_t script_of[CHARACTERS];

/* The advance of each character, and whether glyphs may change if a line begins with the character */
static uint32_t advances[CHARACTERS];
static int is_unsafe[CHARACTERS + 1];

/* The glyphs of a line, from left to right. `left` and `width` are in 1/64 pixel. */
typedef struct glyph {
    cairo_glyph_t drawn;
    long left, width;
    size_t pos, font;
} glyph;

static glyph glyphs[GLYPHS];
static size_t glyph_count;

static void fail(const char *what) {
    fprintf(stderr, "draw: %s\n", what);
    exit(1);
}

static void check(hordguli_status status) {
    if (status != HORDGULI_OK) fail(hordguli_status_text(status));
}

/* ---- Fonts ---- */

static void open_font(FT_Library library, const char *path) {
    FT_Face face;
    hb_blob_t *blob = hb_blob_create_from_file(path);
    hb_face_t *shaped = hb_face_create(blob, 0);
    if (FT_New_Face(library, path, 0, &face) != 0) fail("cannot read a font");
    fonts[font_count].shaping = hb_font_create(shaped);
    fonts[font_count].drawing = cairo_ft_font_face_create_for_ft_face(face, FT_LOAD_NO_HINTING);
    hb_font_set_scale(fonts[font_count].shaping, SIZE * UNITS, SIZE * UNITS);
    hb_face_destroy(shaped);
    hb_blob_destroy(blob);
    font_count++;
}

static int has(size_t font, uint32_t c) {
    hb_codepoint_t glyph;
    return hb_font_get_nominal_glyph(fonts[font].shaping, c, &glyph);
}

/* Chooses the font and the script of each character. Spaces, digits, punctuation and marks belong to the script before
 * them, and stay in its font if it has them. */
static void choose_fonts(void) {
    hb_script_t script = HB_SCRIPT_COMMON;
    size_t font = 0;
    for (size_t k = 0; k < count; k++) {
        hb_script_t own = hb_unicode_script(hb_unicode_funcs_get_default(), characters[k]);
        int is_letter = own != HB_SCRIPT_COMMON && own != HB_SCRIPT_INHERITED;
        size_t first = 0;
        while (first < font_count && !has(first, characters[k])) first++;
        if (first < font_count && (is_letter || !has(font, characters[k]))) font = first;
        if (is_letter) script = own;
        font_of[k] = font;
        script_of[k] = script;
    }
}

/* ---- Measuring ---- */

/* Reads a paragraph, and stores its first line and the number of its lines in `*info`. */
static void read_paragraph(size_t index, hordguli_paragraph_info *info) {
    check(hordguli_paragraph(&session, index, info, CHARACTERS, levels, NULL));
    check(hordguli_text_utf32(&session, info->start, info->length, CHARACTERS, characters, &count));
    start = info->start;
    choose_fonts();
}

/* Whether two adjacent characters are shaped together */
static int is_one_part(size_t first, size_t second) {
    return font_of[first] == font_of[second] && script_of[first] == script_of[second] && levels[first] == levels[second];
}

/* Shapes the characters from `from` up to `to`. HarfBuzz also gets the rest of the paragraph as context,
 * since letters join across the ends of a part. */
static hb_buffer_t *shaped(size_t from, size_t to, uint32_t level) {
    hb_buffer_t *buffer = hb_buffer_create();
    hb_buffer_add_utf32(buffer, characters, (int)count, (unsigned)from, (int)(to - from));
    hb_buffer_set_direction(buffer, level % 2 == 1 ? HB_DIRECTION_RTL : HB_DIRECTION_LTR);
    hb_buffer_set_script(buffer, script_of[from]);
    hb_shape(fonts[font_of[from]].shaping, buffer, NULL, 0);
    return buffer;
}

/* Finds the advances of the characters from `from` up to `to`. The first character of a HarfBuzz cluster gets
 * the advance of the cluster's glyphs, and the others get advance 0. A line must not begin inside a cluster,
 * or where HarfBuzz marks a break as unsafe. */
static void find_advances(size_t from, size_t to) {
    for (size_t first = from, end; first < to; first = end) {
        for (end = first + 1; end < to && is_one_part(end - 1, end);) end++;
        unsigned found;
        hb_buffer_t *buffer = shaped(first, end, levels[first]);
        const hb_glyph_info_t *infos = hb_buffer_get_glyph_infos(buffer, &found);
        const hb_glyph_position_t *places = hb_buffer_get_glyph_positions(buffer, NULL);
        for (size_t k = first; k < end; k++) advances[k] = 0, is_unsafe[k] = 1;
        for (unsigned k = 0; k < found; k++) {
            advances[infos[k].cluster] += (uint32_t)places[k].x_advance;
            is_unsafe[infos[k].cluster] = (hb_glyph_info_get_glyph_flags(&infos[k]) & HB_GLYPH_FLAG_UNSAFE_TO_BREAK) != 0;
        }
        hb_buffer_destroy(buffer);
    }
    is_unsafe[from] = is_unsafe[count] = 0;
}

/* If a line begins or ends at an unsafe break, shapes the line and the rest of the paragraph separately. The line may
 * then end elsewhere, so this is repeated, at most three times. */
static void measure_line(size_t line) {
    for (int times = 0; times < 3; times++) {
        hordguli_line_info info;
        check(hordguli_line(&session, line, &info, 0, NULL, NULL, NULL, NULL, NULL));
        size_t from = info.start - start, to = from + info.shown;
        if (!is_unsafe[from] && !is_unsafe[to]) return;
        find_advances(from, to);
        find_advances(to, count);
        check(hordguli_set_advances(&session, info.start, count - from, advances + from, NULL));
    }
}

static void list_advances(void) {
    for (size_t k = 0; is_listed && k < count; k++) printf("advance %zu %u\n", start + k, advances[k]);
}

/* Measures paragraphs. After an edit, call it for the new paragraphs in the edit's damage. */
static void measure(size_t first, size_t paragraphs) {
    for (size_t k = first; k < first + paragraphs; k++) {
        hordguli_paragraph_info info;
        read_paragraph(k, &info);
        find_advances(0, count);
        check(hordguli_set_advances(&session, start, count, advances, NULL));
        for (size_t line = info.first_line; line < info.first_line + info.lines; line++) {
            measure_line(line);
            check(hordguli_paragraph(&session, k, &info, 0, NULL, NULL)); /* the number of lines may have changed */
        }
        list_advances();
    }
}

/* ---- Drawing ---- */

/* Shapes some characters, and appends their glyphs from `x` on. Returns the right edge of the last glyph. */
static long shape_part(size_t from, size_t to, uint32_t level, long x) {
    unsigned found;
    hb_buffer_t *buffer = shaped(from, to, level);
    const hb_glyph_info_t *infos = hb_buffer_get_glyph_infos(buffer, &found);
    const hb_glyph_position_t *places = hb_buffer_get_glyph_positions(buffer, NULL);
    for (unsigned k = 0; k < found; k++) {
        if (glyph_count == GLYPHS) fail("a line has too many glyphs");
        glyph *next = &glyphs[glyph_count++];
        next->drawn.index = infos[k].codepoint;
        next->drawn.x = (double)(x + places[k].x_offset) / UNITS;
        next->drawn.y = (double)-places[k].y_offset / UNITS;
        next->left = x;
        next->width = places[k].x_advance;
        next->pos = start + infos[k].cluster;
        next->font = font_of[from];
        x += next->width;
    }
    hb_buffer_destroy(buffer);
    return x;
}

/* Shapes a run in parts, from left to right, starting at `x`. Returns its right edge. */
static long shape_run(size_t begin, size_t end, uint32_t level, long x) {
    while (begin < end) {
        size_t from = begin, to = end;
        if (level % 2 == 0) {
            for (to = from + 1; to < end && is_one_part(to - 1, to);) to++;
            begin = to;
        } else {
            for (from = to - 1; from > begin && is_one_part(from - 1, from);) from--;
            end = from;
        }
        x = shape_part(from, to, level, x);
    }
    return x;
}

static void shape_line(size_t line, size_t line_start) {
    static hordguli_run runs[CHARACTERS];
    size_t run_count, first = line_start - start;
    long x = 0;
    check(hordguli_runs(&session, line, CHARACTERS, runs, &run_count));
    glyph_count = 0;
    for (size_t k = 0; k < run_count; k++) {
        hordguli_run run = runs[k];
        x = shape_run(first + run.start, first + run.start + run.length, run.level, x);
    }
}

static void draw_glyphs(cairo_t *picture, size_t line, double left, double top) {
    cairo_set_source_rgb(picture, 0, 0, 0);
    for (const glyph *it = glyphs; it < glyphs + glyph_count; it++) {
        cairo_glyph_t moved = {it->drawn.index, left + it->drawn.x, top + SIZE + it->drawn.y};
        cairo_set_font_face(picture, fonts[it->font].drawing);
        cairo_set_font_size(picture, SIZE);
        cairo_show_glyphs(picture, &moved, 1);
        if (is_listed) printf("glyph %zu %ld %ld %zu %zu %lu\n", line, it->left, it->width, it->pos, it->font, it->drawn.index);
    }
}

/* Draws the selected part of a line. It can have several spans if the direction changes in the line. */
static void draw_selection(cairo_t *picture, size_t line, double left, double top, size_t from, size_t to) {
    hordguli_span spans[SPANS];
    size_t span_count;
    check(hordguli_spans(&session, line, from, to, SPANS, spans, &span_count));
    cairo_set_source_rgb(picture, 0.7, 0.83, 1);
    for (size_t k = 0; k < span_count; k++) {
        double width = (double)(spans[k].right - spans[k].left) / UNITS;
        cairo_rectangle(picture, left + (double)spans[k].left / UNITS, top, width, HEIGHT);
        cairo_fill(picture);
        if (is_listed) printf("span %zu %zu %zu\n", line, spans[k].left, spans[k].right);
    }
}

static void draw_caret(cairo_t *picture, size_t line, double left, double top, hordguli_caret caret) {
    if (caret.line != line) return;
    cairo_set_source_rgb(picture, 0.8, 0, 0);
    cairo_rectangle(picture, left + (double)caret.column / UNITS - 1, top, 2, HEIGHT);
    cairo_fill(picture);
    if (is_listed) printf("caret %zu %zu\n", line, caret.column);
}

static void draw(cairo_t *picture, size_t paragraphs, size_t from, size_t to) {
    hordguli_caret caret;
    hordguli_paragraph_info paragraph;
    hordguli_line_info info;
    check(hordguli_edge_caret(&session, (hordguli_edge){to, from < to ? HORDGULI_AFTER : HORDGULI_BEFORE, 0}, &caret));
    for (size_t k = 0; k < paragraphs; k++) {
        read_paragraph(k, &paragraph);
        for (size_t line = paragraph.first_line; line < paragraph.first_line + paragraph.lines; line++) {
            check(hordguli_line(&session, line, &info, 0, NULL, NULL, NULL, NULL, NULL));
            double left = MARGIN + (double)info.padding / UNITS, top = MARGIN + (double)line * HEIGHT;
            if (is_listed) printf("line %zu %zu\n", line, info.start);
            shape_line(line, info.start);
            draw_selection(picture, line, left, top, from, to);
            draw_glyphs(picture, line, left, top);
            draw_caret(picture, line, left, top, caret);
        }
    }
}

int main(int word_count, char **words) {
    static char text[BYTES];
    FT_Library library;
    hordguli_counts counts;
    hordguli_tables tables = HORDGULI_TABLES_INIT;
    is_listed = word_count > 1 && strcmp(words[1], "--list") == 0;
    char **arguments = words + 1 + is_listed;
    int argument_count = word_count - 1 - is_listed;
    if (argument_count < 5 || argument_count > 4 + FONTS) {
        fprintf(stderr, "draw [--list] WIDTH FROM TO PICTURE FONT... < TEXT\n");
        return 2;
    }
    uint32_t width = (uint32_t)strtoul(arguments[0], NULL, 10);
    size_t from = strtoul(arguments[1], NULL, 10), to = strtoul(arguments[2], NULL, 10);
    size_t length = fread(text, 1, BYTES, stdin);
    if (ferror(stdin) || length == BYTES) fail("cannot read, or too long");
    if (FT_Init_FreeType(&library) != 0) fail("out of memory");
    for (int k = 4; k < argument_count; k++) open_font(library, arguments[k]);
    check(hordguli_tables_open_builtin(&tables));
    check(hordguli_session_open_measured(&session, &tables, 0, width * UNITS, text, length));
    hordguli_tables_close(&tables);
    check(hordguli_session_counts(&session, &counts));
    measure(0, counts.paragraphs);
    check(hordguli_session_counts(&session, &counts));
    cairo_surface_t *surface =
        cairo_image_surface_create(CAIRO_FORMAT_RGB24, (int)width + 2 * MARGIN, (int)counts.lines * HEIGHT + 2 * MARGIN);
    cairo_t *picture = cairo_create(surface);
    cairo_set_source_rgb(picture, 1, 1, 1);
    cairo_paint(picture);
    draw(picture, counts.paragraphs, from, to);
    if (cairo_status(picture) != CAIRO_STATUS_SUCCESS) fail("cannot draw");
    if (cairo_surface_write_to_png(surface, arguments[3]) != CAIRO_STATUS_SUCCESS) fail("cannot write the picture");
    cairo_destroy(picture);
    cairo_surface_destroy(surface);
    hordguli_session_close(&session);
    return fflush(stdout) != 0;
}
