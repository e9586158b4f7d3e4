/* Bins of places: short ranges of the ranks' parts. */
#include "bins.h"

/*
 * 2^18 integers take 1 MB, half of the cache of a processor. More bins than these, in each of which an element is written, would be too many
 * pages at once. A window of a short vector is a part of a rank's.
 */
enum { CVL_WIDEST = 18, CVL_MOST_WINDOWS = 1024 };

static int shift_for(uint64_t total, uint64_t ranks) {
    int shift = CVL_WIDEST;
    while (shift > 0 && total >> shift < 4 * ranks) shift--;
    while (total >> shift > CVL_MOST_WINDOWS) shift++;
    return shift;
}

/* Cuts the places at windows and where ranks begin. */
static void cut(CvlBins *bins, const CvlRanks *ranks) {
    const uint64_t total = ranks->offsets[ranks->size];
    size_t window = 0;
    int rank = 0;
    for (uint64_t at = 0; at < total;) {
        while (at >= ranks->offsets[rank + 1]) rank++;
        const uint64_t next = (uint64_t)(window + 1) << bins->shift, part_end = ranks->offsets[rank + 1];
        if (at == (uint64_t)window << bins->shift) bins->first[window] = (uint32_t)bins->count;
        bins->bin[bins->count++] = (CvlBin){0, (uint32_t)at, (uint32_t)ranks->offsets[rank], rank};
        if (next <= part_end) window++;
        at = next < part_end ? next : part_end;
    }
    bins->bin[bins->count] = (CvlBin){0, (uint32_t)total, 0, ranks->size};
}

void cvl_take_bins(CvlCall *c, CvlBins *bins) {
    const uint64_t total = c->ranks->offsets[c->ranks->size];
    if (c->status.number != CVL_DONE) return;
    bins->shift = shift_for(total, (uint64_t)c->ranks->size);
    const size_t windows = (size_t)(total >> bins->shift) + 1;
    bins->bin = cvl_take(c, windows + (size_t)c->ranks->size + 1, sizeof *bins->bin);
    bins->first = cvl_take(c, windows, sizeof *bins->first);
    if (c->status.number == CVL_DONE) cut(bins, c->ranks);
}

void cvl_start_bins(CvlBins *bins) {
    uint32_t all = 0;
    for (size_t b = 0; b < bins->count; b++) {
        const uint32_t own = bins->bin[b].next;
        bins->bin[b].next = all;
        all += own;
    }
}

void cvl_restart_bins(CvlBins *bins) {
    for (size_t b = bins->count; b-- > 1;) bins->bin[b].next = bins->bin[b - 1].next;
    if (bins->count > 0) bins->bin[0].next = 0;
}

void cvl_free_bins(CvlBins *bins) { free(bins->bin), free(bins->first); }
