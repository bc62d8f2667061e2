/* Implements FriBidi's functions on types, levels, lines and shaping on top of the proved crate hordguli_fribidi and
 * the tables that tools/generate_fribidi_tables writes. This file checks what the crate cannot: NULL pointers
 * and negative lengths. The functions follow FriBidi's header and manual. docs/fribidi-compat.md lists the
 * differences. */
#include "core.h"
#include "tables.h"

#define PUBLIC __attribute__((visibility("default")))

/* The types of FriBidi's header, with their sizes in FriBidi's ABI. Enumerations have 32 bits. */
typedef uint32_t type_number;
typedef uint32_t direction_number;
typedef uint32_t bracket_number;
typedef uint32_t character_number;
typedef signed char level_number;
typedef uint8_t property_number;

#define LENGTH(array) (sizeof(array) / sizeof *(array))
#define TYPES type_index, type_pages
#define BRACKETS sign_index, sign_pages, brackets
#define MIRRORS sign_index, sign_pages, mirrors

/* GIVEN and ROOM expand to the pointer and the length of an array. A NULL pointer stands for an empty
 * array. */
static const uint32_t none[1];
static uint32_t nothing[1];
#define GIVEN(pointer, length) ((pointer) == NULL ? none : (pointer)), ((pointer) == NULL ? 0 : (length))
#define ROOM(pointer, length) ((pointer) == NULL ? nothing : (uint32_t *)(pointer)), ((pointer) == NULL ? 0 : (length))

/* ---- Single characters ---- */

PUBLIC type_number fribidi_get_bidi_type(character_number character) {
    return hordguli_fribidi_core_type(character, TYPES);
}

PUBLIC void fribidi_get_bidi_types(const character_number *string, int length, type_number *types) {
    if (string == NULL || types == NULL || length <= 0) return;
    hordguli_fribidi_core_types(TYPES, string, (size_t)length, types, (size_t)length);
}

PUBLIC const char *fribidi_get_bidi_type_name(type_number type) {
    static const char *const names[] = {"LTR", "RTL", "AL",  "EN",  "ES",  "ET",  "AN",  "CS",   "NSM",
                                        "BN",  "BS",  "SS",  "WS",  "ON",  "LRE", "LRO", "RLE",  "RLO",
                                        "PDF", "LRI", "RLI", "FSI", "PDI", "WLTR", "WRTL", "SENTINEL", "?"};
    uint32_t at = hordguli_fribidi_core_name(type);
    return names[at < LENGTH(names) ? at : LENGTH(names) - 1];
}

PUBLIC bracket_number fribidi_get_bracket(character_number character) {
    return hordguli_fribidi_core_number(character, BRACKETS);
}

PUBLIC void fribidi_get_bracket_types(const character_number *string, int length, const type_number *types,
                                      bracket_number *found) {
    if (string == NULL || types == NULL || found == NULL || length <= 0) return;
    hordguli_fribidi_core_brackets(BRACKETS, string, (size_t)length, types, (size_t)length, found, (size_t)length);
}

PUBLIC int fribidi_get_mirror_char(character_number character, character_number *mirrored) {
    if (mirrored == NULL) return hordguli_fribidi_core_number(character, MIRRORS) != 0;
    return (int)hordguli_fribidi_core_mirror(character, mirrored, MIRRORS);
}

PUBLIC property_number fribidi_get_joining_type(character_number character) {
    return hordguli_fribidi_core_joining_type(character, TYPES);
}

PUBLIC void fribidi_get_joining_types(const character_number *string, int length, property_number *types) {
    if (string == NULL || types == NULL || length <= 0) return;
    hordguli_fribidi_core_joining_types(TYPES, string, (size_t)length, types, (size_t)length);
}

/* ---- Paragraphs ---- */

PUBLIC direction_number fribidi_get_par_direction(const type_number *types, int length) {
    if (types == NULL || length < 0) return hordguli_fribidi_core_direction(none, 0);
    return hordguli_fribidi_core_direction(types, (size_t)length);
}

PUBLIC level_number fribidi_get_par_embedding_levels_ex(const type_number *types, const bracket_number *bracket_types,
                                                        int length, direction_number *direction, level_number *levels) {
    size_t count = length < 0 ? 0 : (size_t)length;
    if (direction == NULL || (count != 0 && (types == NULL || levels == NULL))) return 0;
    return (level_number)hordguli_fribidi_core_levels(GIVEN(types, count), GIVEN(bracket_types, count), direction,
                                                      levels == NULL ? (uint8_t *)nothing : (uint8_t *)levels, count);
}

PUBLIC level_number fribidi_get_par_embedding_levels(const type_number *types, int length, direction_number *direction,
                                                     level_number *levels) {
    return fribidi_get_par_embedding_levels_ex(types, NULL, length, direction, levels);
}

/* ---- Lines ---- */

PUBLIC level_number fribidi_reorder_line(uint32_t flags, const type_number *types, int length, int off,
                                         direction_number direction, level_number *levels, character_number *string,
                                         int *map) {
    size_t end;
    if (length <= 0) return 1;
    if (types == NULL || levels == NULL || off < 0) return 0;
    end = (size_t)off + (size_t)length;
    return (level_number)hordguli_fribidi_core_reorder(flags, types, end, (size_t)off, direction, (uint8_t *)levels, end,
                                                       ROOM(string, end), ROOM(map, end));
}

/* ---- Shaping ---- */

/* FriBidi's flags. */
enum { SHAPE_MIRRORING = 0x1, SHAPE_ARAB_PRES = 0x100, SHAPE_ARAB_LIGA = 0x200, SHAPE_ARAB_CONSOLE = 0x400 };

PUBLIC void fribidi_join_arabic(const type_number *types, int length, const level_number *levels,
                                property_number *properties) {
    if (types == NULL || levels == NULL || properties == NULL || length <= 0) return;
    hordguli_fribidi_core_join(types, (size_t)length, (const uint8_t *)levels, (size_t)length, properties,
                               (size_t)length);
}

PUBLIC void fribidi_shape_arabic(uint32_t flags, const level_number *levels, int length, property_number *properties,
                                 character_number *string) {
    size_t count = (size_t)length;
    if (properties == NULL || string == NULL || length <= 0) return;
    if (flags & SHAPE_ARAB_PRES) hordguli_fribidi_core_forms(forms, properties, count, string, count);
    if ((flags & SHAPE_ARAB_LIGA) && levels != NULL)
        hordguli_fribidi_core_ligatures((const uint8_t *)levels, count, properties, count, string, count);
    if (flags & SHAPE_ARAB_CONSOLE) {
        if (levels != NULL)
            hordguli_fribidi_core_console(console_pairs, console_ligatures, (const uint8_t *)levels, count, properties,
                                          count, string, count);
        hordguli_fribidi_core_forms(console_forms, properties, count, string, count);
    }
}

PUBLIC void fribidi_shape_mirroring(const level_number *levels, int length, character_number *string) {
    if (levels == NULL || string == NULL || length <= 0) return;
    hordguli_fribidi_core_mirrors(MIRRORS, (const uint8_t *)levels, (size_t)length, string, (size_t)length);
}

PUBLIC void fribidi_shape(uint32_t flags, const level_number *levels, int length, property_number *properties,
                          character_number *string) {
    fribidi_shape_arabic(flags, levels, length, properties, string);
    if (flags & SHAPE_MIRRORING) fribidi_shape_mirroring(levels, length, string);
}
