/* Joins the letters of lines as other programs do, for tests/joining/run.
 *
 * Usage: peers fribidi | icu | harfbuzz FONT | glyphs FONT | marks FONT | names LOCALE... Each line of standard input has the code points of
 * characters, in hexadecimal, at level 1.
 *
 * - fribidi, icu: prints the code points that the library shows.
 * - harfbuzz: prints the glyphs in logical order, for example `12:0 7:1`: the number of each, and the index of its first character.
 * - glyphs: prints the font's glyph of each character, without shaping. It is 0 if there is none.
 * - marks: prints for each character whether its glyph is a mark in the font, 1 or 0.
 * - names: prints ICU's names of languages and countries in the locales, in UTF-8.
 */
#include <fribidi/fribidi.h>
#include <harfbuzz/hb-ot.h>
#include <harfbuzz/hb.h>
#include <stdio.h>
#include <stdlib.h>
#include <string.h>
#include <unicode/uloc.h>
#include <unicode/ushape.h>
#include <unicode/ustring.h>

enum { CAPACITY = 4096 };

static void fail(const char *cause)
{
    fprintf(stderr, "peers: %s\n", cause);
    exit(1);
}

static void print_code_points(const uint32_t *text, int length)
{
    for (int k = 0; k < length; k++) {
        printf(k > 0 ? " %x" : "%x", (unsigned)text[k]);
    }
    putchar('\n');
}

static void by_fribidi(const uint32_t *text, int length)
{
    static FriBidiArabicProp props[CAPACITY];
    static FriBidiLevel levels[CAPACITY];
    static FriBidiCharType types[CAPACITY];
    static FriBidiChar shown[CAPACITY];
    memset(levels, 1, sizeof levels);
    memcpy(shown, text, (size_t)length * sizeof *text);
    fribidi_get_bidi_types(shown, length, types);
    fribidi_get_joining_types(shown, length, props);
    fribidi_join_arabic(types, length, levels, props);
    fribidi_shape_arabic(FRIBIDI_FLAGS_ARABIC, levels, length, props, shown);
    print_code_points(shown, length);
}

static void by_icu(const uint32_t *text, int length)
{
    static UChar units[2 * CAPACITY], shaped[2 * CAPACITY];
    static UChar32 shown[2 * CAPACITY];
    int32_t count = 0;
    UErrorCode error = U_ZERO_ERROR;
    u_strFromUTF32(units, 2 * CAPACITY, &count, (const UChar32 *)text, length, &error);
    count = u_shapeArabic(units, count, shaped, 2 * CAPACITY, U_SHAPE_LETTERS_SHAPE | U_SHAPE_LENGTH_GROW_SHRINK, &error);
    u_strToUTF32(shown, 2 * CAPACITY, &count, shaped, count, &error);
    if (U_FAILURE(error)) {
        fail(u_errorName(error));
    }
    print_code_points((const uint32_t *)shown, count);
}

static hb_font_t *font;

static void by_harfbuzz(const uint32_t *text, int length)
{
    hb_buffer_t *buffer = hb_buffer_create();
    hb_buffer_add_codepoints(buffer, text, length, 0, length);
    hb_buffer_set_direction(buffer, HB_DIRECTION_RTL);
    hb_buffer_set_script(buffer, HB_SCRIPT_ARABIC);
    hb_buffer_set_cluster_level(buffer, HB_BUFFER_CLUSTER_LEVEL_CHARACTERS);
    hb_buffer_set_flags(buffer, HB_BUFFER_FLAG_PRESERVE_DEFAULT_IGNORABLES);
    hb_shape(font, buffer, NULL, 0);
    unsigned count = 0;
    const hb_glyph_info_t *glyphs = hb_buffer_get_glyph_infos(buffer, &count);
    for (unsigned k = count; k-- > 0;) {
        printf(k + 1 < count ? " %u:%u" : "%u:%u", glyphs[k].codepoint, glyphs[k].cluster);
    }
    putchar('\n');
    hb_buffer_destroy(buffer);
}

static void by_glyphs(const uint32_t *text, int length)
{
    for (int k = 0; k < length; k++) {
        hb_codepoint_t glyph = 0;
        hb_font_get_nominal_glyph(font, text[k], &glyph);
        printf(k > 0 ? " %u" : "%u", glyph);
    }
    putchar('\n');
}

static void by_marks(const uint32_t *text, int length)
{
    for (int k = 0; k < length; k++) {
        hb_codepoint_t glyph = 0;
        hb_font_get_nominal_glyph(font, text[k], &glyph);
        hb_ot_layout_glyph_class_t kind = hb_ot_layout_get_glyph_class(hb_font_get_face(font), glyph);
        printf(k > 0 ? " %d" : "%d", kind == HB_OT_LAYOUT_GLYPH_CLASS_MARK);
    }
    putchar('\n');
}

static void open_font(const char *path)
{
    hb_blob_t *blob = hb_blob_create_from_file(path);
    hb_face_t *face = hb_face_create(blob, 0);
    if (hb_face_get_glyph_count(face) == 0) {
        fail(path);
    }
    font = hb_font_create(face);
    hb_face_destroy(face);
    hb_blob_destroy(blob);
}

static void print_name(const UChar *name, int32_t length, UErrorCode error)
{
    if (error == U_ZERO_ERROR) { /* other values are errors, or say that the locale has no such name */
        static char bytes[4 * CAPACITY];
        u_strToUTF8(bytes, sizeof bytes, NULL, name, length, &error);
        puts(bytes);
    }
}

static void print_names(const char *locale)
{
    static UChar name[CAPACITY];
    char country[16];
    for (const char *const *code = uloc_getISOLanguages(); *code != NULL; code++) {
        UErrorCode error = U_ZERO_ERROR;
        int32_t length = uloc_getDisplayLanguage(*code, locale, name, CAPACITY, &error);
        print_name(name, length, error);
    }
    for (const char *const *code = uloc_getISOCountries(); *code != NULL; code++) {
        UErrorCode error = U_ZERO_ERROR;
        snprintf(country, sizeof country, "und_%s", *code);
        int32_t length = uloc_getDisplayCountry(country, locale, name, CAPACITY, &error);
        print_name(name, length, error);
    }
}

static void each_line(void (*print)(const uint32_t *, int))
{
    static uint32_t text[CAPACITY];
    static char line[16 * CAPACITY];
    while (fgets(line, sizeof line, stdin) != NULL) {
        int length = 0;
        char *at = line, *end;
        for (;;) {
            unsigned long code = strtoul(at, &end, 16);
            if (end == at) {
                break;
            }
            if (length == CAPACITY) {
                fail("a line is too long");
            }
            text[length++] = (uint32_t)code;
            at = end;
        }
        print(text, length);
    }
}

int main(int count, char **words)
{
    const char *mode = count > 1 ? words[1] : "";
    if (strcmp(mode, "names") == 0) {
        for (int k = 2; k < count; k++) {
            print_names(words[k]);
        }
    } else if (strcmp(mode, "fribidi") == 0) {
        each_line(by_fribidi);
    } else if (strcmp(mode, "icu") == 0) {
        each_line(by_icu);
    } else if (count == 3 && strcmp(mode, "harfbuzz") == 0) {
        open_font(words[2]);
        each_line(by_harfbuzz);
    } else if (count == 3 && strcmp(mode, "glyphs") == 0) {
        open_font(words[2]);
        each_line(by_glyphs);
    } else if (count == 3 && strcmp(mode, "marks") == 0) {
        open_font(words[2]);
        each_line(by_marks);
    } else {
        fail("usage: peers fribidi | icu | harfbuzz FONT | glyphs FONT | marks FONT | names LOCALE..");
    }
    return 0;
}
