/* Does the work of `bin/fribidi --width 80` with ICU4C. Standard input is UTF-8. The lines (icu_fill.h) are printed in
 * visual order and mirrored. Lines of right-to-left paragraphs are padded on the left. */
#include "icu_print.h"

int main(void) {
    int32_t length;
    const UChar *all = read_text(&length);
    open_icu();
    for (int32_t from = 0, to; from < length; from = to) {
        to = paragraph_end(all, from, length);
        print_paragraph(all + from, to - from);
    }
    flush_out();
    return 0;
}
