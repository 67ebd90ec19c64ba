/* A walk over the records of a file. */
#include "command.h"

#include <unistd.h>

status walk(const input *file, void (*record)(const input *file, const cgx_view *view, void *state), void *state) {
    cgx_place place;
    cgx_view view;
    uint64_t at = 0;
    uint32_t answer = cgx_start(file->bytes, file->size, &place, &at);
    if (!isatty(STDOUT_FILENO)) begin_progress(file->name, "reading", file->size); /* else what is printed is the progress */
    while (answer == CGX_OK && (answer = cgx_step(file->bytes, file->size, &place, &view, &at)) == CGX_OK) {
        record(file, &view, state);
        progress_at(place.at);
    }
    end_progress();
    if (answer == CGX_DONE) return ACCEPTED;
    complain(file->name, refusal(answer, at));
    return REFUSED;
}
