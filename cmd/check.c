/* cgx check: whether a file is accepted, or why not. */
#include "command.h"

#include <string.h>

/* From this size on a file is checked by a walk where progress is shown, since a walk can tell how far it is. The library's
   answer is the same, and takes longer. */
static const uint64_t LARGE = (uint64_t)1 << 28;

static uint32_t walked(const input *file, uint64_t *at) {
    cgx_place place;
    cgx_view view;
    uint32_t answer = cgx_start(file->bytes, file->size, &place, at);
    while (answer == CGX_OK && (answer = cgx_step(file->bytes, file->size, &place, &view, at)) == CGX_OK)
        progress_at(place.at);
    return answer == CGX_DONE ? CGX_OK : answer;
}

static status check(const input *file, const request *r) {
    bool by_walk = file->size >= LARGE && progress_is_shown();
    uint64_t at = 0;
    uint32_t answer;
    (void)r;
    begin_progress(file->name, "checking", by_walk ? file->size : 0);
    answer = by_walk ? walked(file, &at) : cgx_check(file->bytes, file->size, &at);
    end_progress();
    put_escaped((const uint8_t *)file->name, strlen(file->name));
    put(": ");
    put(answer == CGX_OK ? "ok" : refusal(answer, at));
    put("\n");
    return answer == CGX_OK ? ACCEPTED : REFUSED;
}

static status run(const request *r) {
    return each_file(r, check);
}

const word word_check = {
    .name = "check",
    .arguments = "FILE..",
    .summary = "say of each file whether it is a good drawing, or why not",
    .details = "Prints a line for each file:\n"
               "  FILE: ok\n"
               "  FILE: refused N at P: WORDS\n"
               "N is the number of the refusal and P the offset in the file that it is about.\n",
    .run = run,
};
