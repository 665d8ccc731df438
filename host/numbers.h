/* What a numeric call is asked, and how such numbers are drawn. */
#ifndef NUMBERS_H
#define NUMBERS_H

#include "paper.h"
#include "rng.h"

#define PLATES_ROOM 4096

struct question {
    enum part part;
    uint32_t numbers[BLIND_NUMBERS]; /* by name; an endplate has fewer */
    struct paper_plate plates[PLATES_ROOM];
    size_t plate_count;
    int standard;    /* the plates are the usual stock: no list is given, and a sheet has nothing after plates= */
    uint64_t colons; /* a bit for each of a sheet's entries, the lowest first: with it, a minus of 0 is written `:0` */
};

/* Values that are to be kept, by number; FREE where any may be drawn. */
#define FREE (-1)
struct wish {
    int64_t numbers[BLIND_NUMBERS];
};
struct wish wish_nothing(void);

void question_figures(const struct question *question, uint64_t figures[PAPER_PLACES]);

/* The total for which a plate is chosen; 0 where the numbers meet a cause before 14. */
uint32_t question_total(const struct question *question);

/* Numbers that meet no cause before 13, wherever the wish leaves room for it. The plates stay as they were. */
void draw_numbers(struct rng *rng, enum part part, const struct wish *wish, struct question *question);

/* The least root area whose bolts carry both loads, from numbers that meet no cause before 10. */
uint32_t sufficient_root(const uint32_t n[BLIND_NUMBERS]);

/* A blind flange with need and edge of a few mm at most: a small cover, little pressure, bolts just strong enough. */
void draw_thin_flange(struct rng *rng, struct question *question);

/* The end, form a, with the least total that numbers can have, 7. The plates stay as they were. */
void give_least_end(struct question *question);

/* A list of plates, or the usual stock. plates may be null where count is 0. */
void give_plates(struct question *question, const struct paper_plate *plates, size_t count);
void give_standard_plates(struct question *question);

/* least to most plates, a third of the lists without minus. Most plates, less their minus, are about the total of the
   numbers, some far away, some of a minus above their thickness, some of the thickness of one before them. */
void draw_plates(struct rng *rng, uint32_t least, uint32_t most, struct question *question);

/* The allowance with which the total is a plate of the usual stock less its minus, and step: the smallest plate for which
   there is one. As it was where there is none, or a cause before 14. */
void meet_standard_plate(int step, struct question *question);

/* The usual stock, half the time with such an allowance: steps of -1 to 1 from thickness less minus or from thickness. */
void draw_standard_plates(struct rng *rng, struct question *question);

/* Replaces some of the numbers by others up to largest, which meet any cause. */
void draw_wild_numbers(struct rng *rng, uint32_t largest, struct question *question);

enum part draw_part(struct rng *rng);

#endif
