/* Draws one subtitle with libass, and prints checksums of its images. Usage: subtitle TEXT. */
#include <ass/ass.h>
#include <stdio.h>
#include <string.h>

int main(int argc, char **argv) {
    static char script[4096];
    ASS_Library *library = ass_library_init();
    ASS_Renderer *renderer = library ? ass_renderer_init(library) : NULL;
    if (argc < 2 || renderer == NULL) return 2;
    snprintf(script, sizeof script, "[Script Info]\nScriptType: v4.00+\nPlayResX: 640\nPlayResY: 360\n[V4+ Styles]\nFormat: Name, Fontname, Fontsize, Alignment, Encoding\n"
             "Style: Default,DejaVu Sans,40,2,-1\n[Events]\nFormat: Layer, Start, End, Style, Text\nDialogue: 0,0:00:00.00,0:00:10.00,Default,%s\n", argv[1]);
    ass_set_frame_size(renderer, 640, 360);
    ass_set_fonts(renderer, NULL, "DejaVu Sans", ASS_FONTPROVIDER_AUTODETECT, NULL, 1);
    ASS_Track *track = ass_read_memory(library, script, strlen(script), NULL);
    for (ASS_Image *image = ass_render_frame(renderer, track, 1000, NULL); image != NULL; image = image->next) {
        unsigned long sum = 0;
        for (int y = 0; y < image->h; y++)
            for (int x = 0; x < image->w; x++) sum = sum * 31 + image->bitmap[y * image->stride + x];
        printf("%d,%d %dx%d %08x %lu\n", image->dst_x, image->dst_y, image->w, image->h, (unsigned)image->color, sum);
    }
    ass_free_track(track);
    ass_renderer_done(renderer);
    ass_library_done(library);
    return 0;
}
