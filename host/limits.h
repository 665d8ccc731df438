/* The limits of every cause: the value of one number at which it begins or ends, and the plates at which 14 does. */
#ifndef LIMITS_H
#define LIMITS_H

#include "numbers.h"

/* How the limit's value is found. */
enum limit_rule {
    FIXED,                    /* given */
    WIDTH_AT_OD,              /* 4 width = od */
    RIB_ALONE,                /* rib from 1 on while ribw is 0 */
    RIB_WIDTH_ALONE,          /* ribw from 1 on while rib is 0 */
    ROOT_AT_BOLT,             /* 100 root = 785 bolt^2 */
    SA_AT_SB,                 /* sa = 4 sb */
    CIRCLE_AT_OD,             /* C = od + 10 bolt */
    CIRCLE_AT_G,              /* 2 C = 3 G */
    ROOT_AT_OPERATING,        /* A sb = Wm1 */
    ROOT_AT_SEATING,          /* A sa = Wm2 */
    ROOT_IN_OPERATING_TENTHS, /* A sb = Wm1, in steps of under a newton: mostly short of Wm1 in whole newtons */
    ROOT_IN_SEATING_TENTHS    /* A sa = Wm2, likewise */
};

struct limit {
    enum part part;
    int number;
    enum limit_rule rule;
    uint32_t value; /* of a fixed one */
};

extern const struct limit limits[];
extern const size_t limit_count;

/* Numbers with the one of the limit at it or a step away, the others sound as far as that allows; no plates. */
void draw_limit(struct rng *rng, const struct limit *limit, int step, struct question *question);
void draw_any_limit(struct rng *rng, struct question *question);

/* The order of causes: numbers that meet many at once, of which so many are mended one after another; no plates. */
extern const size_t mend_counts[PARTS];
void give_mended(enum part part, size_t mended, struct question *question);

/* A number counted from the total: so many times the total, and more. */
struct from_total {
    int times;
    int64_t more;
};

/* A list of plates about the total, what is left of them below, at and above it. */
#define PLATE_LIMIT_MOST 5
struct plate_limit {
    size_t count;
    struct {
        struct from_total thickness, under_tolerance;
    } plates[PLATE_LIMIT_MOST];
};

extern const struct plate_limit plate_limits[];
extern const size_t plate_limit_count;

/* Gives the numbers the list, as their total has it. A sheet has a colon at each second entry at least. */
void give_plate_limit(const struct plate_limit *limit, struct question *question);

/* An end from the usual stock whose total is a plate of it less its minus, and step, which is -1 to 31. */
void give_stock_limit(size_t plate, int step, struct question *question);

#endif
