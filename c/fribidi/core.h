/* The functions of the proved crate hordguli_fribidi, on which fribidi.c is built.
 *
 * tests/c/exports checks that the parameters have the same names as in the crate. An array is a pointer and a
 * length. The pointer is never NULL and is aligned for its type, even if the length is 0. An output array
 * must not overlap any other array. */
#ifndef HORDGULI_FRIBIDI_CORE_H
#define HORDGULI_FRIBIDI_CORE_H

#include <stddef.h>
#include <stdint.h>

/* Functions that look up characters in the tables that tools/generate_fribidi_tables writes. */
uint32_t hordguli_fribidi_core_type(uint32_t c, const uint8_t index[static 4352], const uint32_t pages[static 65536]);
void hordguli_fribidi_core_types(const uint8_t index[static 4352], const uint32_t pages[static 65536],
                                 const uint32_t *characters, size_t characters_length, uint32_t *types,
                                 size_t types_length);
uint32_t hordguli_fribidi_core_number(uint32_t c, const uint8_t index[static 4352], const uint16_t pages[static 4096],
                                      const uint32_t numbers[static 512]);
uint32_t hordguli_fribidi_core_mirror(uint32_t c, uint32_t *mirrored, const uint8_t index[static 4352],
                                      const uint16_t pages[static 4096], const uint32_t numbers[static 512]);
void hordguli_fribidi_core_brackets(const uint8_t index[static 4352], const uint16_t pages[static 4096],
                                    const uint32_t numbers[static 512], const uint32_t *characters,
                                    size_t characters_length, const uint32_t *types, size_t types_length,
                                    uint32_t *brackets, size_t brackets_length);

uint8_t hordguli_fribidi_core_joining_type(uint32_t c, const uint8_t index[static 4352],
                                           const uint32_t pages[static 65536]);
void hordguli_fribidi_core_joining_types(const uint8_t index[static 4352], const uint32_t pages[static 65536],
                                         const uint32_t *characters, size_t characters_length, uint8_t *joining,
                                         size_t joining_length);

/* Returns the index of a type among the types that have names, or 26 if the type has no name. */
uint32_t hordguli_fribidi_core_name(uint32_t number);

/* Functions on paragraphs and lines. If an allocation fails or lengths differ, they return 0 and change nothing.
 * Functions on lines allocate nothing. */
uint32_t hordguli_fribidi_core_direction(const uint32_t *types, size_t types_length);
uint32_t hordguli_fribidi_core_levels(const uint32_t *types, size_t types_length, const uint32_t *brackets,
                                      size_t brackets_length, uint32_t *direction, uint8_t *levels,
                                      size_t levels_length);
uint32_t hordguli_fribidi_core_reorder(uint32_t flags, const uint32_t *types, size_t types_length, size_t off,
                                       uint32_t direction, uint8_t *levels, size_t levels_length, uint32_t *string,
                                       size_t string_length, uint32_t *map, size_t map_length);

/* Functions on properties and strings. They allocate nothing, and change nothing if lengths differ. */
void hordguli_fribidi_core_join(const uint32_t *types, size_t types_length, const uint8_t *levels, size_t levels_length,
                                uint8_t *properties, size_t properties_length);
void hordguli_fribidi_core_forms(const uint16_t forms[static 1024], const uint8_t *properties, size_t properties_length,
                                 uint32_t *string, size_t string_length);
void hordguli_fribidi_core_ligatures(const uint8_t *levels, size_t levels_length, uint8_t *properties,
                                     size_t properties_length, uint32_t *string, size_t string_length);
void hordguli_fribidi_core_console(const uint32_t pairs[static 64], const uint32_t ligatures[static 64],
                                   const uint8_t *levels, size_t levels_length, uint8_t *properties,
                                   size_t properties_length, uint32_t *string, size_t string_length);
void hordguli_fribidi_core_mirrors(const uint8_t index[static 4352], const uint16_t pages[static 4096],
                                   const uint32_t numbers[static 512], const uint8_t *levels, size_t levels_length,
                                   uint32_t *string, size_t string_length);

#endif
