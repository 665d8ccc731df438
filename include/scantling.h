/*
 * scantling: flat endplates, blind flanges, baffles and support plates to BS 853-2:1996, clauses 5, 8 and 10, on whole
 * numbers.
 *
 * Link the archive libcapi.a that `host/archive` writes to target/staticlib/ (x86-64 Linux).
 * The calls keep no state, allocate nothing and may run in several threads at once.
 *
 * The plate for an end of 500 mm welded into a shell; examples/calls.c packs plates into bytes. A call answers one place,
 * and each place asked is a calculation of its own:
 *
 *     uint64_t cause = scantling_endplate(2, 1, 1, 150, 1000, 5000, 100, plates, sizeof plates, SCANTLING_CAUSE);
 *     if (cause == SCANTLING_ACCEPTED)
 *         cut(scantling_endplate(2, 1, 1, 150, 1000, 5000, 100, plates, sizeof plates, SCANTLING_ENDPLATE_PLATE));
 *
 * A sheet, and its report in a space that no report exceeds:
 *
 *     uint8_t report[SCANTLING_LONGEST_REPORT];
 *     size_t length = scantling_sheet(text, text_length, report, sizeof report);
 *     fwrite(report, 1, length, stdout);
 *
 * A book, sheets one after another in one text, and the reports of the first 64 of them in a space that these do not
 * exceed:
 *
 *     static uint8_t reports[SCANTLING_LONGEST_BATCH];
 *     uint64_t length = scantling_batch(
 *         book, book_length, SCANTLING_MOST_SHEETS, reports, sizeof reports, SCANTLING_BATCH_LENGTH);
 *     fwrite(reports, 1, (size_t)length, stdout);
 *
 * And its summary, how many of them are accepted and refused, in a space that no summary exceeds:
 *
 *     uint8_t summary[SCANTLING_LONGEST_SUMMARY];
 *     fwrite(summary, 1, scantling_summary(book, book_length, summary, sizeof summary), stdout);
 */
#ifndef SCANTLING_H
#define SCANTLING_H

#include <stddef.h>
#include <stdint.h>

#ifdef __cplusplus
extern "C" {
#endif

/* Places of a calculation's figures, of a support plate's and of a book's. A refusal has 0 from 2 on, and any other
   place is 0. */
enum scantling_place {
    SCANTLING_CAUSE = 0, /* 0 where what is asked is accepted */
    SCANTLING_FIGURE = 1 /* the figure that belongs to the cause */
};

/* Places 2 to 5 of an endplate, in the order of its report. */
enum scantling_endplate_place {
    SCANTLING_ENDPLATE_DESIGN_STRESS = 2, /* stress: N/mm2; the lower of plate and shell for forms c and d */
    SCANTLING_ENDPLATE_THICKNESS = 3,     /* need: hundredths of a mm */
    SCANTLING_ENDPLATE_TOTAL = 4,         /* need and allowance: hundredths of a mm */
    SCANTLING_ENDPLATE_PLATE = 5          /* the plate chosen, its thickness alone: hundredths of a mm */
};

/* Places 2 to 12 of a blind flange, in the order of its report; and 13 to 15 of the call that chooses the bolts. */
enum scantling_blind_flange_place {
    SCANTLING_BLIND_FLANGE_DESIGN_STRESS = 2,     /* stress, S: N/mm2 */
    SCANTLING_BLIND_FLANGE_AMBIENT_STRESS = 3,    /* cold, S0, at 50 degrees C: N/mm2 */
    SCANTLING_BLIND_FLANGE_REACTION_DIAMETER = 4, /* g, G: tenths of a mm */
    SCANTLING_BLIND_FLANGE_EFFECTIVE_WIDTH = 5,   /* b: hundredths of a mm */
    SCANTLING_BLIND_FLANGE_OPERATING_LOAD = 6,    /* wm1: tenths of a newton */
    SCANTLING_BLIND_FLANGE_SEATING_LOAD = 7,      /* wm2: tenths of a newton */
    SCANTLING_BLIND_FLANGE_FLANGE_LOAD = 8,       /* w: tenths of a newton */
    SCANTLING_BLIND_FLANGE_THICKNESS = 9,         /* need: hundredths of a mm */
    SCANTLING_BLIND_FLANGE_EDGE_THICKNESS = 10,   /* edge: hundredths of a mm */
    SCANTLING_BLIND_FLANGE_TOTAL = 11,            /* greater of both, and allowance: hundredths of a mm */
    SCANTLING_BLIND_FLANGE_PLATE = 12,            /* the plate chosen, its thickness alone: hundredths of a mm */
    SCANTLING_BLIND_FLANGE_BOLT = 13,             /* diameter of the bolts chosen: mm */
    SCANTLING_BLIND_FLANGE_ROOT = 14,             /* root area of one of them: tenths of mm2 */
    SCANTLING_BLIND_FLANGE_COUNT = 15             /* how many */
};

/* Places 2 and 3 of a support plate. */
enum scantling_support_plate_place {
    SCANTLING_SUPPORT_PLATE_LONGEST_SPAN = 2, /* of Table 13: mm */
    SCANTLING_SUPPORT_PLATE_THICKNESS = 3     /* the least, of Table 14: mm */
};

/* Groups of tube materials, the columns of Table 13. */
enum scantling_group {
    SCANTLING_GROUP_STEEL = 1, /* carbon steel, steel alloys, stainless steel */
    SCANTLING_GROUP_COPPER = 2 /* copper and copper alloys */
};

/* Places 2 and 3 of a book. */
enum scantling_batch_place {
    SCANTLING_BATCH_COUNT = 2, /* sheets worked, refused ones among them: 1 to the limit */
    SCANTLING_BATCH_LENGTH = 3 /* bytes written, all of them reports */
};

/* Causes of refusal, in checking order: 17 comes right after 8, 24 where 13 would, and 16 before all else. 18 to 20 are
   of scantling_support_plate only, which has no others. The figure is 0 where none is named. */
enum scantling_cause {
    SCANTLING_ACCEPTED = 0,
    SCANTLING_BAD_LINE = 1,          /* of a sheet only; figure: the line's number, from 1 */
    SCANTLING_BAD_MATERIAL = 2,      /* form, material or shell */
    SCANTLING_BAD_PRESSURE = 3,
    SCANTLING_BAD_TEMPERATURE = 4,
    SCANTLING_NO_DESIGN_STRESS = 5,  /* Table 1 has a dash for a material in use */
    SCANTLING_BAD_DIAMETER = 6,
    SCANTLING_BAD_ALLOWANCE = 7,
    SCANTLING_BAD_WIDTH = 8,
    SCANTLING_BAD_RIB = 17,          /* rib or rib_width */
    SCANTLING_BAD_GASKET = 9,        /* m or y */
    SCANTLING_BAD_BOLTS = 10,        /* bolt, root or count */
    SCANTLING_BAD_BOLT_STRESS = 11,  /* sa or sb */
    SCANTLING_BAD_BOLT_CIRCLE = 12,
    SCANTLING_BOLTS_OVERLOADED = 13, /* the bolts do not carry the loads */
    SCANTLING_NO_BOLTS = 24,         /* of scantling_blind_flange_bolts only, which has no 10, 12, 13: the lists, or no
                                        size and count to choose */
    SCANTLING_NO_PLATE = 14,         /* no plate of the list or stock serves; figure: the total, hundredths of a mm */
    SCANTLING_SHORT_SPACE = 15,      /* of scantling_batch; figure: the length needed. scantling_sheet and
                                        scantling_summary return that length, never 15 */
    SCANTLING_BAD_LIMIT = 16,        /* of scantling_batch only: limit */
    SCANTLING_BAD_TUBE = 18,         /* tube is below 6 mm, or group neither 1 nor 2 */
    SCANTLING_SPAN_TOO_LONG = 19,    /* span is over the longest that Table 13 allows */
    SCANTLING_PLATE_TOO_LARGE = 20   /* plate is over 1000 mm, the largest of Table 14 */
};

/* No report is longer, in bytes. */
#define SCANTLING_LONGEST_REPORT 319

/* The greatest limit of a book and the most sheets of a summary, and a length in bytes that the reports of so many
   sheets do not exceed. */
#define SCANTLING_MOST_SHEETS 64
#define SCANTLING_LONGEST_BATCH (SCANTLING_MOST_SHEETS * SCANTLING_LONGEST_REPORT)

/* No summary is longer, in bytes. */
#define SCANTLING_LONGEST_SUMMARY 1024

/*
 * A plate in the bytes of a list: two uint32_t of four bytes each, lowest byte first, its thickness and then its mill minus
 * tolerance, in hundredths of a mm, each of any value. A plate serves if its thickness less its minus is not below the
 * total; one whose minus exceeds its thickness never does. Chosen is the smallest thickness that serves, the first of
 * equals.
 */
#define SCANTLING_PLATE_BYTES 8

/*
 * One figure of an endplate without openings (8.3.4). The numbers stand in the order of a sheet's lines. Each may be
 * any uint32_t; outside its range the call is refused by its cause.
 */
uint64_t scantling_endplate(
    uint32_t form,        /* 1, 2, 3 for forms a, c, d of 8.3.4 */
    uint32_t material,    /* of the plate, number in Table 1: 1 to 11, but no tube (7, 9, 11) */
    uint32_t shell,       /* material of the cylinder: 1 to 11; 0 exactly for form a */
    uint32_t temperature, /* design temperature, degrees C: 0 to 300 */
    uint32_t pressure,    /* thousandths of N/mm2: 1 to 2000 */
    uint32_t diameter,    /* bolt circle (a) or inside of the shell (c, d), tenths of a mm: 500 to 30000 */
    uint32_t allowance,   /* for corrosion, hundredths of a mm: 0 to 1000 */
    const uint8_t *plates, /* eight bytes each: thickness, then minus; see SCANTLING_PLATE_BYTES */
    size_t plates_length, /* in bytes, any; a last 1 to 7 bytes over are not read. plates may be null if it is 0 */
    uint32_t place);      /* the figure wanted, any; see enum scantling_place */

/* One figure of a blind flange with the gasket inside the bolt circle (Figure 4), in the same way. */
uint64_t scantling_blind_flange(
    uint32_t material,    /* number in Table 1: 1 to 11, but no tube (7, 9, 11) */
    uint32_t temperature, /* design temperature, degrees C: 0 to 300 */
    uint32_t pressure,    /* thousandths of N/mm2: 1 to 2000 */
    uint32_t allowance,   /* for corrosion, hundredths of a mm: 0 to 1000 */
    uint32_t od,          /* gasket outside contact diameter, tenths of a mm: 500 to 30000 */
    uint32_t width,       /* gasket contact width, tenths of a mm: 100 to 500, and 4 * width at most od */
    uint32_t rib,         /* length of a pass partition rib, tenths of a mm: 1 to 40000; 0 without one */
    uint32_t rib_width,   /* its contact width, tenths of a mm: 1 to 500; 0 exactly where rib is 0 */
    uint32_t m,           /* gasket factor, hundredths: 0 to 650 */
    uint32_t y,           /* gasket seating stress, tenths of N/mm2: 0 to 1800 */
    uint32_t circle,      /* bolt circle, tenths of a mm: at least od + 10 * bolt, and 2 * circle at most 3 * G */
    uint32_t bolt,        /* bolt diameter, mm: 12 to 76 */
    uint32_t root,        /* root area of one bolt, tenths of mm2: at least 1, and 100 * root at most 785 * bolt^2 */
    uint32_t count,       /* number of bolts: 4 to 100 */
    uint32_t sa,          /* bolt stress cold, N/mm2: 1 to 400, and at most 4 * sb */
    uint32_t sb,          /* bolt stress at design temperature, N/mm2: 1 to 400 */
    const uint8_t *plates, /* as for an endplate */
    size_t plates_length,
    uint32_t place);

/*
 * The same figures without a list: the plate is chosen from the usual stock, of 3, 4, 5, 6, 8, 10, 12, 15, 20, 25, 30, 40
 * and 50 mm, each with a minus of 0.30 mm. Each answers what the call above answers with a list of these. An empty list is
 * not the usual stock: with it the calls above are refused by SCANTLING_NO_PLATE, and its figure is the total, wherever no
 * other cause applies.
 */
uint64_t scantling_endplate_standard(
    uint32_t form, uint32_t material, uint32_t shell, uint32_t temperature, uint32_t pressure, uint32_t diameter,
    uint32_t allowance, uint32_t place);
uint64_t scantling_blind_flange_standard(
    uint32_t material, uint32_t temperature, uint32_t pressure, uint32_t allowance, uint32_t od, uint32_t width,
    uint32_t rib, uint32_t rib_width, uint32_t m, uint32_t y, uint32_t circle, uint32_t bolt, uint32_t root,
    uint32_t count, uint32_t sa, uint32_t sb, uint32_t place);

/* The most bolt sizes, and the bytes of a diameter or a root area in a list: a uint32_t, lowest byte first. */
#define SCANTLING_MOST_BOLT_SIZES 16
#define SCANTLING_BOLT_NUMBER_BYTES 4

/*
 * One figure of a blind flange with bolts chosen from a list of sizes: the first has the first diameter and the first
 * root area, and so on. Sizes are tried in this order, and of each 4, 8, 12 bolts up to 100. Chosen is the first size
 * and count with which scantling_blind_flange meets none of 10, 12 and 13, and 314 * circle is at least
 * 2500 * bolt * count. The flange is then answered as there with these bolts, which places 13 to 15 name.
 *
 * It is refused by 24, and never by 10, 12 or 13, if there are no sizes or more than SCANTLING_MOST_BOLT_SIZES, if
 * there are not as many root areas as diameters, or if no size and count can be chosen. A circle below od + 120, or
 * with 2 * circle over 3 * G, leaves none.
 */
uint64_t scantling_blind_flange_bolts(
    uint32_t material, uint32_t temperature, uint32_t pressure, uint32_t allowance, uint32_t od, uint32_t width,
    uint32_t rib, uint32_t rib_width, uint32_t m, uint32_t y, uint32_t circle, uint32_t sa,
    uint32_t sb,              /* up to here as for scantling_blind_flange */
    const uint8_t *diameters, /* four bytes each: bolt diameter, mm, any; those outside 12 to 76 are not chosen */
    size_t diameters_length,  /* in bytes, any; a last 1 to 3 over are not read. diameters may be null if it is 0 */
    const uint8_t *areas,     /* in the same way: root area of one bolt, tenths of mm2, any; see root there */
    size_t areas_length,
    const uint8_t *plates,    /* as for an endplate */
    size_t plates_length,
    uint32_t place);

/*
 * One figure of a transverse baffle or tube support plate: the longest span that Table 13 allows (10.6.4), or the least
 * thickness by Table 14 (10.6.5.1). Lengths are in whole mm, and each number may be any uint32_t. The tube reads the
 * row of the largest diameter listed that is not above it, one of 63 that of 50. Span and plate read the first column
 * and row of Table 14 that are not below them, so that zero reads the first.
 *
 * It is refused by 18, 19 or 20, in that order. The figure is then 0, and so are places 2 and 3, under 19 too; but a
 * span and a plate of 0 meet neither 19 nor 20, so that with them place 2 tells what the tube allows. What these
 * clauses ask besides, of U-bends and of finned tubes, is not looked at.
 */
uint64_t scantling_support_plate(
    uint32_t tube,   /* outside diameter of the tube, fins included: at least 6 */
    uint32_t group,  /* of its material: 1 or 2, see enum scantling_group */
    uint32_t span,   /* unsupported length of straight tube, without the U-bend: at most the longest for the tube */
    uint32_t plate,  /* diameter of the plate: at most 1000 */
    uint32_t place); /* the figure wanted, any; see enum scantling_place and enum scantling_support_plate_place */

/*
 * Answers the sheet in text: the length in bytes of its report or refusal. If that is not above out_length the report
 * stands in the first bytes of out, and the bytes past it are as they were. Otherwise the space is short (cause 15) and
 * all of out is as it was. A text of any bytes is answered. text and out must not overlap; either may be null if its
 * length is 0. An entry after plates= is thickness or thickness:minus,
 * in hundredths of a mm. A sheet that ends in "plates=\n" has the usual
 * stock; one that ends in "plates=none\n" has no plate, and its refusal by cause 14 says the total.
 */
size_t scantling_sheet(const uint8_t *text, size_t text_length, uint8_t *out, size_t out_length);

/*
 * Answers the book in text, and returns the one of its numbers that place asks for. The book is cut before every line
 * that begins with "part=", the first line excepted. Each piece is a sheet on its own; a book of no bytes is one empty
 * sheet. The first limit pieces are worked, or all if there are fewer. Their reports stand one after another in the
 * first bytes of out, and the bytes past them are as they were. A refused piece has its two lines there, and the next
 * is still worked. A line number in a report counts from the sheet's own first line. Where the count is the limit,
 * nothing tells whether the book has more pieces than were worked.
 *
 * The book itself is refused by 16, before all else, if limit is 0 or over SCANTLING_MOST_SHEETS, and by 15 if these
 * reports are together longer than out_length; the figure of 15 is their length. Then count and length are 0, and all
 * of out is as it was.
 *
 * Each place asked is all of the work once more, and writes out. So ask for the length first: a limit of 1 to 64 and a
 * space of SCANTLING_LONGEST_BATCH bytes meet neither cause, and otherwise a length of 0 says that there is one, for no
 * report is empty. A text of any bytes is answered. text and out must not overlap; either may be null if its length is
 * 0. The reports are gathered on the stack, of which the call takes some 24,000 bytes.
 */
uint64_t scantling_batch(
    const uint8_t *text, size_t text_length,
    uint32_t limit,  /* sheets worked at most: 1 to 64 */
    uint8_t *out, size_t out_length,
    uint32_t place); /* of the number wanted: the cause, its figure, the count or the length; any other is 0 */

/*
 * Answers the length in bytes of the summary of the book in text. The book is cut as scantling_batch cuts it. Its first
 * SCANTLING_MOST_SHEETS pieces are counted, or all if there are fewer, each as scantling_sheet answers it; a book of no
 * bytes is one sheet, refused by 1. Where pieces is SCANTLING_MOST_SHEETS, nothing tells whether the book has more. The
 * lines, each key=number and LF, in this order:
 *
 *     pieces                  sheets counted: 1 to SCANTLING_MOST_SHEETS
 *     accepted, refused       of these; together they are the pieces
 *     refused1 to refused14,  of the refused, those under each cause, shown even when there are none; together they are
 *     refused17               the refused, for a sheet meets no other cause
 *     sum                     of plate less total over the accepted sheets, hundredths of a mm; 0 if none is accepted
 *     least, greatest         of plate less total over the accepted sheets, likewise; left out if none is accepted
 *
 * The plate is the thickness that the sheet's report names, without the minus. It is never below the total.
 *
 * If the length is not above out_length the summary stands in the first bytes of out, and the bytes past it are as they
 * were. Otherwise the space is short (cause 15) and all of out is as it was: a space of SCANTLING_LONGEST_SUMMARY bytes
 * never is. A text of any bytes is answered. text and out must not overlap; either may be null if its length is 0. The
 * call takes some 4,600 bytes of stack.
 */
size_t scantling_summary(const uint8_t *text, size_t text_length, uint8_t *out, size_t out_length);

/* The least r with r * r not below n, the root that thicknesses are worked with; for measuring. */
uint64_t scantling_least_root(uint64_t n);

#ifdef __cplusplus
}
#endif

#endif
