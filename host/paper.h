/*
 * The separate calculation: flat endplates and blind flanges worked from documents 01 and 02 alone, in 128-bit integers and
 * the documents' units. Every "least whole number with ..." is a search on the inequality as the document writes it.
 * Baffles and support plates are read from the tables of document 004.
 */
#ifndef PAPER_H
#define PAPER_H

#include <stddef.h>
#include <stdint.h>

__extension__ typedef unsigned __int128 u128;

enum part { PART_NONE, PART_END, PART_BLIND, PARTS };

/* The numbers of an endplate and of a blind flange, in the order of the sheet's lines. */
enum { END_FORM, END_MATERIAL, END_SHELL, END_TEMPERATURE, END_PRESSURE, END_DIAMETER, END_ALLOWANCE, END_NUMBERS };
enum {
    BLIND_MATERIAL, BLIND_TEMPERATURE, BLIND_PRESSURE, BLIND_ALLOWANCE, BLIND_OD, BLIND_WIDTH, BLIND_RIB,
    BLIND_RIB_WIDTH, BLIND_M, BLIND_Y, BLIND_CIRCLE, BLIND_BOLT, BLIND_ROOT, BLIND_COUNT, BLIND_SA, BLIND_SB,
    BLIND_NUMBERS
};

/* Forms a, c, d of 8.3.4 as the numeric call names them. */
enum { FORM_A = 1, FORM_C = 2, FORM_D = 3 };

/* Causes of refusal; 16 is of a book alone, 18 to 20 of a support plate, 24 of bolts to be chosen. Counts by cause have
   CAUSES places, one more than the greatest without 18 to 20 and 24. */
enum {
    CAUSE_NONE = 0, CAUSE_LINE = 1, CAUSE_MATERIAL = 2, CAUSE_PRESSURE = 3, CAUSE_TEMPERATURE = 4,
    CAUSE_DESIGN_STRESS = 5, CAUSE_DIAMETER = 6, CAUSE_ALLOWANCE = 7, CAUSE_WIDTH = 8, CAUSE_GASKET = 9,
    CAUSE_BOLTS = 10, CAUSE_BOLT_STRESS = 11, CAUSE_CIRCLE = 12, CAUSE_OVERLOAD = 13, CAUSE_PLATE = 14,
    CAUSE_SPACE = 15, CAUSE_LIMIT = 16, CAUSE_RIB = 17, CAUSES, CAUSE_TUBE = 18, CAUSE_SPAN = 19,
    CAUSE_SUPPORT_PLATE = 20, CAUSE_NO_BOLTS = 24
};

/* Places of the figures. Those from 2 on stand in report order; a place without a figure holds 0. */
enum { PLACE_CAUSE, PLACE_FIGURE, PLACE_REPORT };
enum { END_DESIGN_STRESS_PLACE = PLACE_REPORT, END_THICKNESS_PLACE, END_TOTAL_PLACE, END_PLATE_PLACE };
enum {
    BLIND_DESIGN_STRESS_PLACE = PLACE_REPORT, BLIND_AMBIENT_STRESS_PLACE, BLIND_REACTION_DIAMETER_PLACE,
    BLIND_EFFECTIVE_WIDTH_PLACE, BLIND_OPERATING_LOAD_PLACE, BLIND_SEATING_LOAD_PLACE, BLIND_FLANGE_LOAD_PLACE,
    BLIND_THICKNESS_PLACE, BLIND_EDGE_THICKNESS_PLACE, BLIND_TOTAL_PLACE, BLIND_PLATE_PLACE,
    BLIND_BOLT_PLACE, BLIND_ROOT_PLACE, BLIND_COUNT_PLACE /* of bolts that were chosen */
};
enum { PAPER_PLACES = BLIND_COUNT_PLACE + 6 }; /* of the longer report and the bolts chosen, and some past them */

#define PAPER_SHEET_PLATES 32
#define PAPER_STANDARD_PLATES 13
#define PAPER_REPORT_ROOM 512

/* An entry of a list: nominal thickness and mill minus tolerance, hundredths of a mm. */
struct paper_plate {
    uint32_t thickness, under_tolerance;
};

/* The usual stock. */
extern const struct paper_plate paper_standard_plates[PAPER_STANDARD_PLATES];

/* Table 1: N/mm2; 0 for a dash, for no such material and above 300 degrees. */
uint32_t paper_design_stress(uint32_t material, uint32_t temperature);

/* F: the plate's stress, for forms c and d the lower of plate's and shell's; 0 if a material in use has none. */
uint32_t paper_endplate_design_stress(const uint32_t n[END_NUMBERS]);

/* The least x with a * x >= b, for a of 1 or more and a * b below 2^128; other numbers end the program. */
uint64_t paper_least_quotient(u128 a, u128 b);

/* The least x with a * x * x >= b, for a of 1 or more, both below 2^64; other numbers end the program. */
uint64_t paper_least_root(u128 a, u128 b);

/* Gasket and loads of a blind flange that meets none of the causes 2 to 9 and 17. */
struct paper_gasket {
    u128 effective_width;     /* b */
    u128 rib_effective_width; /* b of the rib, 0 without one */
    u128 reaction_diameter;   /* G */
    u128 operating_load;      /* Wm1, tenths of a newton */
    u128 seating_load;        /* Wm2, likewise */
};
struct paper_gasket paper_gasket(const uint32_t n[BLIND_NUMBERS]);

/* Thickness less minus, below 0 where the minus exceeds the thickness; and whether that is not below the total. */
int64_t paper_least_thickness(struct paper_plate plate);
int paper_serves(struct paper_plate plate, uint64_t total);

/* Of the plates that serve the first of the smallest nominal thickness; null if there is none. */
const struct paper_plate *paper_smallest_serving(const struct paper_plate *plates, size_t count, uint64_t total);

/*
 * All figures by place, for any numbers; the plate's is its thickness. plates may be null where count is 0. Returns the
 * plate chosen, which is one of the list; null where the numbers are refused.
 */
const struct paper_plate *paper_endplate(
    const uint32_t n[], const struct paper_plate *plates, size_t count, uint64_t figures[PAPER_PLACES]);
const struct paper_plate *paper_blind_flange(
    const uint32_t n[], const struct paper_plate *plates, size_t count, uint64_t figures[PAPER_PLACES]);

/* Bytes of an entry in C: two numbers of four bytes, thickness first, the lowest byte first. */
#define PAPER_PLATE_BYTES 8

/* The plates in bytes as the C interface takes them; at most room are written. Returns how many. */
size_t paper_plates(const uint8_t *bytes, size_t length, struct paper_plate *plates, size_t room);

#define PAPER_NUMBER_BYTES 4 /* of a diameter or a root area in C, the lowest byte first */

/* Such numbers, likewise. */
size_t paper_numbers(const uint8_t *bytes, size_t length, uint32_t *numbers, size_t room);

#define PAPER_MOST_SIZES 16
#define PAPER_LEAST_BOLTS 4 /* of a size, and by how many more the next is tried */
#define PAPER_MOST_BOLTS 100
#define PAPER_BOLT_COUNTS (PAPER_MOST_BOLTS / PAPER_LEAST_BOLTS) /* of a size */

/* Bolt sizes: diameters and root areas, of which there may be another number. */
struct paper_sizes {
    const uint32_t *diameters, *areas; /* null where there are none */
    size_t diameter_count, area_count;
};

/* As many areas as diameters, and 1 to PAPER_MOST_SIZES of them. */
int paper_sizes_sound(const struct paper_sizes *sizes);

/* 314 C >= 2500 bolt count. */
int paper_pitch_enough(const uint32_t n[BLIND_NUMBERS]);

/* A blind flange whose bolt, root and count are chosen: those of n are not read. Otherwise as paper_blind_flange. */
const struct paper_plate *paper_blind_flange_bolts(
    const uint32_t n[BLIND_NUMBERS], const struct paper_sizes *sizes, const struct paper_plate *plates, size_t count,
    uint64_t figures[PAPER_PLACES]);

/* The numbers of a support plate in the order of the request, and the groups of Table 13's columns. */
enum { SUPPORT_TUBE, SUPPORT_GROUP, SUPPORT_SPAN, SUPPORT_PLATE, SUPPORT_NUMBERS };
enum { GROUP_STEEL = 1, GROUP_COPPER = 2 };

enum { SUPPORT_LONGEST_SPAN_PLACE = PLACE_REPORT, SUPPORT_THICKNESS_PLACE };

/* Tables 13 and 14, for any numbers: the longest span allowed and the least thickness, mm, by place. */
void paper_support_plate(const uint32_t n[SUPPORT_NUMBERS], uint64_t figures[PAPER_PLACES]);

/* The accuracy demand on the figures printed for accepted numbers: 1 if the exact inequalities judge them right. */
int paper_endplate_exact(const uint32_t n[], const uint64_t figures[PAPER_PLACES]);
int paper_blind_flange_exact(const uint32_t n[], const uint64_t figures[PAPER_PLACES]);

/* What the parts differ in. */
struct paper_part {
    const char *word;               /* on the line `part` */
    size_t numbers;                 /* between it and the line `plates` */
    const char *const *keys;        /* of the numbers */
    const char *const *report_keys; /* by place */
    uint32_t total_place, last_place; /* of the report's figures; the last is the plate's */
    uint32_t thickness_place, edge_thickness_place; /* of what exact judges; an endplate's edge is past its report */
    const struct paper_plate *(*work)(
        const uint32_t n[], const struct paper_plate *plates, size_t count, uint64_t figures[PAPER_PLACES]);
    int (*exact)(const uint32_t n[], const uint64_t figures[PAPER_PLACES]);
};
extern const struct paper_part paper_parts[PARTS]; /* a text of PART_NONE is refused: it has the keys for that alone */

/* What a plates line names; PAPER_UNREAD where none was read. */
enum paper_stock { PAPER_UNREAD, PAPER_LISTED, PAPER_STANDARD, PAPER_NONE, PAPER_STOCKS };

/* What a sheet holds, its figures by place, and the plate chosen. Under cause 1 only the figures are to be read. */
struct paper_answer {
    enum part part;
    enum paper_stock stock;
    uint32_t numbers[BLIND_NUMBERS];
    struct paper_plate plates[PAPER_SHEET_PLATES];
    size_t plate_count;
    uint64_t figures[PAPER_PLACES];
    const struct paper_plate *plate; /* one of plates; null where the sheet is refused */
};

/* The report or the refusal (causes 1 to 14 and 17) of a sheet, in PAPER_REPORT_ROOM bytes. Returns its length. The
   answer's plate points into the answer. */
size_t paper_report(const uint8_t *text, size_t length, uint8_t *report, struct paper_answer *answer);

/* The same in a lent space, which is written only if the report fits it. */
size_t paper_sheet(const uint8_t *text, size_t length, uint8_t *out, size_t out_length);

/* Adds the line of a key and a number to a text of this length. Returns the length with it. */
size_t paper_put_line(uint8_t *text, size_t length, const char *key, uint64_t number);

#define PAPER_MOST_SHEETS 64 /* the greatest limit of a book, and the most pieces that a summary counts */

/* Places of a book's answer, from 2 on: the count of pieces worked, and the length written. */
enum { BATCH_COUNT_PLACE = PLACE_REPORT, BATCH_LENGTH_PLACE, BATCH_PLACES };

/* The length of a book's first piece. What follows it is a book of the others. */
size_t paper_piece(const uint8_t *text, size_t length);

/* The reports of a book's pieces, of as many as limit at most, one after another from the front of out; out is
   written only if all of them fit it. */
void paper_book(
    const uint8_t *text, size_t length, uint32_t limit, uint8_t *out, size_t out_length,
    uint64_t figures[BATCH_PLACES]);

/* The causes that a sheet can be refused by, in rising order; a summary has a line for each. */
extern const uint32_t paper_sheet_causes[];
extern const size_t paper_sheet_cause_count;

/* Bytes that no summary exceeds: room for the lines of 27 causes with numbers of 20 digits, 997 bytes. */
#define PAPER_LONGEST_SUMMARY 1024

/* The summary of a book's first PAPER_MOST_SHEETS pieces, or of all if there are fewer; out is written only if it fits
   that. Returns its length. */
size_t paper_summary(const uint8_t *text, size_t length, uint8_t *out, size_t out_length);

#endif
