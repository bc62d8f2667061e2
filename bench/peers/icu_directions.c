/* Does the work of `bin/fribidi --novisual --basedir` with ICU4C. Standard input is UTF-8. For each paragraph, it prints LTR
 * or RTL, by the first strong character. */
#include "icu_text.h"

int main(void) {
    int32_t length;
    const UChar *all = read_text(&length);
    for (int32_t from = 0, to; from < length; from = to) {
        to = paragraph_end(all, from, length);
        UBool is_rtl = ubidi_getBaseDirection(all + from, to - from) == UBIDI_RTL;
        if (out_length + 4 > OUT_SIZE) flush_out();
        out[out_length++] = is_rtl ? 'R' : 'L';
        out[out_length++] = 'T';
        out[out_length++] = is_rtl ? 'L' : 'R';
        out[out_length++] = '\n';
    }
    flush_out();
    return 0;
}
