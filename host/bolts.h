/* What the call that chooses the bolts is asked, what is known of it by hand, and how its lists are drawn. */
#ifndef BOLTS_H
#define BOLTS_H

#include "numbers.h"

#define SIZES_ROOM 24

struct bolts_question {
    struct question flange; /* a blind flange; its bolt, root and count are not asked */
    uint32_t diameters[SIZES_ROOM], areas[SIZES_ROOM];
    size_t diameter_count, area_count;
};

struct paper_sizes question_sizes(const struct bolts_question *question);

/* Of an accepted question: the number, from 0, of the first size with the bolts of its figures. */
size_t size_taken(const struct bolts_question *question, const uint64_t figures[PAPER_PLACES]);

/* The printed flange with another od, circle and sb, and sizes; what is known is the cause where a plate serves, and
   the bolts chosen. */
#define KNOWN_SIZES 3
struct known_bolts {
    uint32_t od, circle, sb;
    size_t small; /* sizes ahead of the others, of which no number of bolts carries */
    size_t diameter_count, area_count;
    uint32_t sizes[KNOWN_SIZES][2];
    uint32_t cause, bolt, root, count;
};
extern const struct known_bolts known_bolts[];
extern const size_t known_bolts_count;

/* With a plate that serves. */
void known_bolts_question(const struct known_bolts *known, struct bolts_question *question);

/* Lists that meet 24: none, one longer than the other, and too many sizes of which each serves. */
#define ILL_LISTS 4
void give_ill_lists(size_t number, struct bolts_question *question);

/* One size. */
void give_size(uint32_t bolt, uint32_t root, struct bolts_question *question);

/* So many sizes, of which the flange, drawn before, takes the one of this number, wherever it leaves room for that. */
void draw_sizes(struct rng *rng, size_t count, size_t taken, struct bolts_question *question);

/* Plates about the total with the bolts chosen. */
void draw_plates_for_bolts(struct rng *rng, uint32_t least, uint32_t most, struct bolts_question *question);

/* Flange, lists and plates; any cause is met. */
void draw_bolts_question(struct rng *rng, struct bolts_question *question);

#endif
