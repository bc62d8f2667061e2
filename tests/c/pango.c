/* Compares where lines start in a session, with the advances that Pango measures, and in Pango's layout of
 * the same text. Also measures the times of both. tests/c/pango runs it. Usage: pango < TEXTS. Each line of
 * TEXTS is a width in pixels, a space and a text without separators.
 *
 * Prints a line for each text: `same` and the number of lines, or `differ` and four numbers about the first line that starts
 * elsewhere:
 *   - where the line starts here, in characters
 *   - where the line starts in Pango
 *   - 1 if there is a break opportunity here where Pango's line starts, else 0
 *   - 1 if there is a break opportunity in Pango where our line starts, else 0
 *
 * The last line begins with `times`. Then come six times in nanoseconds, and the number of texts for which
 * shaping always gives Pango's advances: before an edit, with the inserted letter, and after the edit. (An
 * edit inserts a letter in the middle and deletes it.) Each time is a sum over the texts, of the minimum of
 * several runs for each text. The times are for:
 *   - two changes of the width here
 *   - two changes of the width in Pango, until the lines are known
 *   - an edit here, with advances that are known
 *   - an edit here, after which HarfBuzz, with Pango's fonts, shapes only the changed text, up to the nearest space on
 *     both sides. Text is changed if its characters, levels, fonts or scripts are
 *   - an edit here, after which HarfBuzz shapes the whole paragraph
 *   - an edit in Pango, which shapes the whole paragraph, until the lines are known */
#include "test.h"

#include <pango/pangoft2.h>
#include <time.h>

enum { MOST = 20000, MOST_FONTS = 16, RUNS = 5, NARROWER = 3 };
enum { WIDTH, PANGO_WIDTH, EDIT, SHAPED_EDIT, WHOLE_EDIT, PANGO_EDIT, TIMES };

/* Characters of one style are shaped together. `font` is an index, or MOST_FONTS if no font has the character. */
typedef struct Style {
    hb_script_t script;
    uint32_t level;
    uint32_t font;
} Style;

static hordguli_tables tables = HORDGULI_TABLES_INIT;
static uint32_t advances[MOST];
static uint32_t edited_advances[MOST];
static size_t starts[2][MOST]; /* of the lines, here and in Pango */
static double times[TIMES];
static size_t equal_texts;
static hb_font_t *fonts[MOST_FONTS]; /* of Pango, first the font of the description */
static size_t font_count;
static hb_buffer_t *buffer;

/* State of a caller that does its own shaping: the text's characters, styles and advances */
static hb_codepoint_t characters[MOST];
static Style styles[MOST];
static uint32_t shaped[MOST];

static void check(int is_so, const char *what) {
    if (is_so) return;
    fprintf(stderr, "pango: %s\n", what);
    exit(1);
}

static size_t position(const char *text, int byte) { return (size_t)g_utf8_pointer_to_offset(text, text + byte); }

static void add_font(PangoFont *font) {
    hb_font_t *added = pango_font_get_hb_font(font);
    for (size_t at = 0; at < font_count; at++)
        if (fonts[at] == added) return;
    check(font_count < MOST_FONTS, "too many fonts");
    fonts[font_count++] = hb_font_reference(added);
}

/* Stores the advances of the characters in a layout of one line, and adds its fonts to `fonts`. The first
 * character of a cluster has the advance of the cluster's glyphs. */
static void find_advances(PangoLayout *layout, const char *text, uint32_t *found) {
    pango_layout_set_text(layout, text, -1);
    memset(found, 0, sizeof advances);
    check(pango_layout_get_line_count(layout) == 1, "more than one line");
    for (GSList *it = pango_layout_get_line_readonly(layout, 0)->runs; it != NULL; it = it->next) {
        const PangoLayoutRun *run = it->data;
        add_font(run->item->analysis.font);
        for (int k = 0; k < run->glyphs->num_glyphs; k++)
            found[position(text, run->item->offset + run->glyphs->log_clusters[k])] += (uint32_t)run->glyphs->glyphs[k].geometry.width;
    }
}

static size_t lines_of_pango(PangoLayout *layout, const char *text) {
    size_t count = (size_t)pango_layout_get_line_count(layout);
    for (size_t line = 0; line < count; line++)
        starts[1][line] = position(text, pango_layout_line_get_start_index(pango_layout_get_line_readonly(layout, (int)line)));
    return count;
}

static size_t lines_of_session(const char *text, uint32_t width, uint8_t *marks) {
    hordguli_session session = HORDGULI_SESSION_INIT;
    hordguli_paragraph_info info;
    size_t count;
    check(hordguli_session_open_measured(&session, &tables, HORDGULI_WHOLE_NUMBERS, width, text, strlen(text)) == HORDGULI_OK, "cannot open");
    check(hordguli_paragraph(&session, 0, &info, MOST, NULL, marks) == HORDGULI_OK, "a paragraph is too long");
    check(hordguli_set_advances(&session, 0, info.length, advances, NULL) == HORDGULI_OK, "cannot measure");
    check(hordguli_paragraph(&session, 0, &info, 0, NULL, NULL) == HORDGULI_OK, "no paragraph");
    count = info.lines;
    for (size_t line = 0; line < count; line++) hordguli_line_start(&session, line, &starts[0][line]);
    hordguli_session_close(&session);
    return count;
}

static double now(void) {
    struct timespec time;
    clock_gettime(CLOCK_MONOTONIC, &time);
    return 1e9 * (double)time.tv_sec + (double)time.tv_nsec;
}

static void set_width(hordguli_session *session, int width) {
    check(hordguli_set_measured_width(session, (uint32_t)width, NULL) == HORDGULI_OK, "no width");
}

static void set_pango_width(PangoLayout *layout, int width) {
    pango_layout_set_width(layout, width);
    check(pango_layout_get_line_count(layout) > 0, "no lines");
}

static void set_pango_text(PangoLayout *layout, const char *text) {
    pango_layout_set_text(layout, text, -1);
    check(pango_layout_get_line_count(layout) > 0, "no lines");
}

/* Inserts a letter and deletes it, and sets all advances after each edit. `count` is the text's length. */
static void edit(hordguli_session *session, size_t pos, size_t count) {
    int is_so = hordguli_insert(session, pos, "x", 1, NULL) == HORDGULI_OK;
    is_so = is_so && hordguli_set_advances(session, 0, count + 1, edited_advances, NULL) == HORDGULI_OK;
    is_so = is_so && hordguli_delete(session, pos, 1, NULL) == HORDGULI_OK;
    check(is_so && hordguli_set_advances(session, 0, count, advances, NULL) == HORDGULI_OK, "no edit");
}

/* Returns the script of a character or, if it is Common, Inherited or Unknown, `before`, the script of the
 * character before. */
static hb_script_t script_of(hb_codepoint_t c, hb_script_t before) {
    hb_script_t script = hb_unicode_script(hb_unicode_funcs_get_default(), c);
    return script == HB_SCRIPT_COMMON || script == HB_SCRIPT_INHERITED || script == HB_SCRIPT_UNKNOWN ? before : script;
}

/* Returns the index of the first font that has a character, or MOST_FONTS if none has it or it is a space. */
static uint32_t font_of(hb_codepoint_t c) {
    hb_codepoint_t glyph;
    if (c == ' ') return MOST_FONTS;
    for (uint32_t at = 0; at < font_count; at++)
        if (hb_font_get_nominal_glyph(fonts[at], c, &glyph)) return at;
    return MOST_FONTS;
}

/* Finds the style of each character. As in Pango, a space gets the font of a neighbour of the same level and
 * script. If the fonts of its neighbours differ, it gets the one that comes first in `fonts`. */
static void find_styles(hordguli_session *session, size_t count) {
    static uint8_t levels[MOST];
    hordguli_paragraph_info info;
    hb_script_t script = HB_SCRIPT_COMMON;
    check(hordguli_paragraph(session, 0, &info, MOST, levels, NULL) == HORDGULI_OK && info.length == count, "no levels");
    for (size_t pos = 0; pos < count && script == HB_SCRIPT_COMMON; pos++) script = script_of(characters[pos], script);
    for (size_t first = 0, pos = 0; pos < count; pos++) {
        uint32_t font = font_of(characters[pos]), before;
        script = script_of(characters[pos], script);
        if (levels[pos] != levels[first] || script != styles[first].script) first = pos;
        before = first < pos ? styles[pos - 1].font : MOST_FONTS;
        styles[pos] = (Style){script, levels[pos], font == MOST_FONTS ? before : font};
        for (size_t k = pos; font < before && k > first && characters[k - 1] == ' '; k--) styles[k - 1].font = font;
    }
}

static int is_same(const Style *one, const Style *other) {
    return one->script == other->script && one->level == other->level && one->font == other->font;
}

/* Shapes characters of one style. The first character of a cluster gets the advance of all its glyphs. */
static void shape(size_t first, size_t end, size_t count) {
    const Style *style = &styles[first];
    const hb_glyph_info_t *infos;
    const hb_glyph_position_t *positions;
    unsigned glyphs;
    hb_buffer_clear_contents(buffer);
    hb_buffer_add_codepoints(buffer, characters, (int)count, (unsigned)first, (int)(end - first));
    hb_buffer_set_direction(buffer, style->level % 2 ? HB_DIRECTION_RTL : HB_DIRECTION_LTR);
    hb_buffer_set_script(buffer, style->script);
    hb_shape(fonts[style->font < font_count ? style->font : 0], buffer, NULL, 0);
    infos = hb_buffer_get_glyph_infos(buffer, &glyphs);
    positions = hb_buffer_get_glyph_positions(buffer, NULL);
    memset(shaped + first, 0, (end - first) * sizeof *shaped);
    for (unsigned k = 0; k < glyphs; k++) shaped[infos[k].cluster] += (uint32_t)positions[k].x_advance;
}

/* Shapes characters, one run of equal style at a time, and sets the advances of the paragraph. */
static void shape_all(hordguli_session *session, size_t from, size_t to, size_t count) {
    for (size_t first = from, end = from; first < to; first = end) {
        while (end < to && is_same(&styles[end], &styles[first])) end++;
        shape(first, end, count);
    }
    check(hordguli_set_advances(session, 0, count, shaped, NULL) == HORDGULI_OK, "cannot measure");
}

/* After an edit at `pos`, shapes all characters if `is_whole` is set, and otherwise those between the nearest
 * spaces around what has changed. The paragraph has `count` characters, of which `added` are new. `added` is
 * -1 if a character was deleted. */
static void shape_edited(hordguli_session *session, size_t pos, int added, size_t count, int is_whole) {
    static Style old[MOST];
    size_t from = 0, to = count, old_count = count - (size_t)added, kept = added > 0 ? pos + 1 : pos;
    memcpy(old, styles, old_count * sizeof *old);
    find_styles(session, count);
    while (!is_whole && from < pos && is_same(&styles[from], &old[from])) from++;
    while (!is_whole && to > kept && is_same(&styles[to - 1], &old[to - 1 - (size_t)added])) to--;
    while (from > 0 && characters[from - 1] != ' ') from--;
    while (to < count && characters[to] != ' ') to++;
    shape_all(session, from, to, count);
}

static void insert_shaped(hordguli_session *session, size_t pos, size_t count, int is_whole) {
    check(hordguli_insert(session, pos, "x", 1, NULL) == HORDGULI_OK, "no edit");
    memmove(characters + pos + 1, characters + pos, (count - pos) * sizeof *characters);
    memmove(shaped + pos + 1, shaped + pos, (count - pos) * sizeof *shaped);
    characters[pos] = 'x';
    shape_edited(session, pos, 1, count + 1, is_whole);
}

static void delete_shaped(hordguli_session *session, size_t pos, size_t count, int is_whole) {
    check(hordguli_delete(session, pos, 1, NULL) == HORDGULI_OK, "no edit");
    memmove(characters + pos, characters + pos + 1, (count - pos) * sizeof *characters);
    memmove(shaped + pos, shaped + pos + 1, (count - pos) * sizeof *shaped);
    shape_edited(session, pos, -1, count, is_whole);
}

/* Checks that shaping after an edit gives the same advances as shaping the whole paragraph. Returns whether
 * they equal Pango's. */
static int is_shaped(hordguli_session *session, size_t count, const uint32_t *by_pango) {
    static uint32_t kept[MOST];
    memcpy(kept, shaped, count * sizeof *shaped);
    shape_all(session, 0, count, count);
    check(memcmp(kept, shaped, count * sizeof *shaped) == 0, "an edit does not shape all that it changes");
    return memcmp(shaped, by_pango, count * sizeof *shaped) == 0;
}

/* Shapes a text. Returns whether its advances equal Pango's, before, during and after an edit. */
static int shapes_as_pango(hordguli_session *session, const char *text, size_t count) {
    gunichar *decoded = g_utf8_to_ucs4_fast(text, -1, NULL);
    memcpy(characters, decoded, count * sizeof *characters);
    g_free(decoded);
    find_styles(session, count);
    shape_all(session, 0, count, count);
    int is_equal = is_shaped(session, count, advances);
    insert_shaped(session, count / 2, count, 0);
    is_equal = is_shaped(session, count + 1, edited_advances) && is_equal;
    delete_shaped(session, count / 2, count, 0);
    return is_shaped(session, count, advances) && is_equal;
}

static void run(hordguli_session *session, PangoLayout *layout, int width, const char *text, const char *edited, double *least) {
    size_t count = (size_t)g_utf8_strlen(text, -1);
    double at[TIMES + 1];
    at[WIDTH] = now();
    set_width(session, width / NARROWER);
    set_width(session, width);
    at[PANGO_WIDTH] = now();
    set_pango_width(layout, width / NARROWER);
    set_pango_width(layout, width);
    at[EDIT] = now();
    edit(session, count / 2, count);
    at[SHAPED_EDIT] = now();
    insert_shaped(session, count / 2, count, 0);
    delete_shaped(session, count / 2, count, 0);
    at[WHOLE_EDIT] = now();
    insert_shaped(session, count / 2, count, 1);
    delete_shaped(session, count / 2, count, 1);
    at[PANGO_EDIT] = now();
    set_pango_text(layout, edited);
    set_pango_text(layout, text);
    at[TIMES] = now();
    for (int k = 0; k < TIMES; k++) least[k] = least[k] < at[k + 1] - at[k] ? least[k] : at[k + 1] - at[k];
}

/* Adds the times for a text at the width of `layout`. */
static void time_text(PangoLayout *layout, const char *text, const char *edited) {
    size_t count = (size_t)g_utf8_strlen(text, -1);
    double least[TIMES];
    int width = pango_layout_get_width(layout);
    hordguli_session session = HORDGULI_SESSION_INIT;
    check(hordguli_session_open_measured(&session, &tables, HORDGULI_WHOLE_NUMBERS, (uint32_t)width, text, strlen(text)) == HORDGULI_OK, "cannot open");
    equal_texts += (size_t)shapes_as_pango(&session, text, count);
    for (int k = 0; k < TIMES; k++) least[k] = 1e18;
    for (int k = 0; k < RUNS; k++) run(&session, layout, width, text, edited, least);
    for (int k = 0; k < TIMES; k++) times[k] += least[k];
    hordguli_session_close(&session);
}

/* Returns the text with a letter inserted in the middle. */
static char *edited_text(const char *text) {
    int byte = (int)(g_utf8_offset_to_pointer(text, g_utf8_strlen(text, -1) / 2) - text);
    return g_strdup_printf("%.*sx%s", byte, text, text + byte);
}

static void compare(PangoContext *context, const PangoFontDescription *font, int width, const char *text) {
    static uint8_t marks[MOST];
    PangoLayout *layout = pango_layout_new(context);
    PangoAttrList *attributes = pango_attr_list_new();
    char *edited = edited_text(text);
    size_t counts[2], line = 0, ours, theirs;
    const PangoLogAttr *breaks;
    int break_count;
    pango_attr_list_insert(attributes, pango_attr_insert_hyphens_new(FALSE));
    pango_layout_set_attributes(layout, attributes);
    pango_layout_set_font_description(layout, font);
    find_advances(layout, edited, edited_advances);
    find_advances(layout, text, advances);
    pango_layout_set_wrap(layout, PANGO_WRAP_WORD_CHAR);
    pango_layout_set_width(layout, width * PANGO_SCALE);
    counts[1] = lines_of_pango(layout, text);
    counts[0] = lines_of_session(text, (uint32_t)width * PANGO_SCALE, marks);
    breaks = pango_layout_get_log_attrs_readonly(layout, &break_count);
    while (line < counts[0] && line < counts[1] && starts[0][line] == starts[1][line]) line++;
    ours = line < counts[0] ? starts[0][line] : (size_t)break_count - 1;
    theirs = line < counts[1] ? starts[1][line] : (size_t)break_count - 1;
    if (ours == theirs) printf("same %zu\n", counts[0]);
    else printf("differ %zu %zu %d %d\n", ours, theirs, marks[theirs - 1] != HORDGULI_BREAK_NEVER, breaks[ours].is_line_break);
    time_text(layout, text, edited);
    g_free(edited);
    pango_attr_list_unref(attributes);
    g_object_unref(layout);
}

int main(void) {
    static char row[MOST * 4];
    PangoFontMap *map = pango_ft2_font_map_new();
    PangoContext *context = pango_font_map_create_context(map);
    PangoFontDescription *font = pango_font_description_from_string("Noto Sans 15");
    pango_context_set_round_glyph_positions(context, FALSE);
    pango_context_set_language(context, pango_language_from_string("en"));
    buffer = hb_buffer_create();
    PangoFont *first = pango_font_map_load_font(map, context, font);
    add_font(first);
    g_object_unref(first);
    check(hordguli_tables_open_builtin(&tables) == HORDGULI_OK, "out of memory");
    while (fgets(row, sizeof row, stdin) != NULL) {
        char *text;
        int width = (int)strtol(row, &text, 10);
        text[strcspn(text, "\n")] = '\0';
        check(*text == ' ' && text[1] != '\0', "a line without a text");
        compare(context, font, width, text + 1);
    }
    printf("times");
    for (int k = 0; k < TIMES; k++) printf(" %.0f", times[k]);
    printf(" %zu\n", equal_texts);
    hordguli_tables_close(&tables);
    pango_font_description_free(font);
    g_object_unref(context);
    g_object_unref(map);
    return 0;
}
