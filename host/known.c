#include "known.h"

#include <string.h>

/* The document's plates, of which 4000 serves every case of it. */
#define PLATES {{2500, 0}, {3200, 0}, {4000, 0}}

#define END_NUMBERS_OF(form, material, shell, temperature, pressure)                           \
    {[END_FORM] = form, [END_MATERIAL] = material, [END_SHELL] = shell,                        \
     [END_TEMPERATURE] = temperature, [END_PRESSURE] = pressure, [END_DIAMETER] = 5000,        \
     [END_ALLOWANCE] = 0}
#define END(form, material, shell, temperature, pressure, place, figure)                       \
    {PART_END, END_NUMBERS_OF(form, material, shell, temperature, pressure), PLATES, place, figure}
#define BLIND(width, rib, rib_width, bolt, place, figure)                                      \
    {PART_BLIND,                                                                               \
     {[BLIND_MATERIAL] = 1, [BLIND_TEMPERATURE] = 150, [BLIND_PRESSURE] = 1000,                \
      [BLIND_ALLOWANCE] = 100, [BLIND_OD] = 5000, [BLIND_WIDTH] = width, [BLIND_RIB] = rib,    \
      [BLIND_RIB_WIDTH] = rib_width, [BLIND_M] = 200, [BLIND_Y] = 110, [BLIND_CIRCLE] = 5600,  \
      [BLIND_BOLT] = bolt, [BLIND_ROOT] = 2250, [BLIND_COUNT] = 16, [BLIND_SA] = 100,          \
      [BLIND_SB] = 100},                                                                       \
     PLATES, place, figure}
#define PRINTED(place, figure) BLIND(100, 0, 0, 20, place, figure)

/*
 * The printed flange with a rib of 490 mm by 10 mm. Its b is 5 mm, so that it adds 2 * 5 * 490 * 2 * 1 = 9800.0 N to the
 * 219250.5 N of Wm1, and 5 * 490 * 11 = 26950.0 N to the 84623.0 N of Wm2.
 */
#define RIBBED(place, figure) BLIND(100, 4900, 100, 20, place, figure)

/* The document's end that needs 2500 exactly, from three plates of a thickness and a minus each. */
#define FROM(thickness_1, minus_1, thickness_2, minus_2, thickness_3, minus_3, place, figure)  \
    {PART_END, END_NUMBERS_OF(FORM_C, 1, 1, 150, 1080),                                        \
     {{thickness_1, minus_1}, {thickness_2, minus_2}, {thickness_3, minus_3}}, place, figure}

const struct known known_cases[] = {
    END(FORM_C, 6, 1, 50, 1000, END_DESIGN_STRESS_PLACE, 48),
    END(FORM_C, 6, 1, 51, 1000, END_DESIGN_STRESS_PLACE, 46),
    END(FORM_C, 6, 1, 200, 200, END_DESIGN_STRESS_PLACE, 18),
    END(FORM_C, 6, 1, 201, 1000, PLACE_CAUSE, 5),
    END(FORM_C, 1, 1, 300, 1000, END_DESIGN_STRESS_PLACE, 91),
    END(FORM_C, 1, 1, 301, 1000, PLACE_CAUSE, 4),
    END(FORM_A, 1, 0, 150, 1000, END_THICKNESS_PLACE, 2406),
    END(FORM_C, 1, 2, 150, 1000, END_THICKNESS_PLACE, 2650),
    END(FORM_D, 1, 1, 150, 1000, END_THICKNESS_PLACE, 2778),
    END(FORM_C, 1, 1, 150, 1080, END_THICKNESS_PLACE, 2500),
    END(FORM_C, 1, 1, 150, 1081, END_THICKNESS_PLACE, 2502),
    BLIND(126, 0, 0, 20, BLIND_EFFECTIVE_WIDTH_PLACE, 630),
    BLIND(127, 0, 0, 20, BLIND_EFFECTIVE_WIDTH_PLACE, 640),
    BLIND(200, 0, 0, 20, BLIND_EFFECTIVE_WIDTH_PLACE, 800),
    END(FORM_C, 1, 1, 150, 2000, PLACE_CAUSE, 0),
    END(FORM_C, 1, 1, 150, 2001, PLACE_CAUSE, 3),
    BLIND(99, 0, 0, 20, PLACE_CAUSE, 8),
    BLIND(100, 0, 0, 11, PLACE_CAUSE, 10),
    PRINTED(PLACE_CAUSE, 0),
    PRINTED(PLACE_FIGURE, 0),
    PRINTED(BLIND_DESIGN_STRESS_PLACE, 108),
    PRINTED(BLIND_AMBIENT_STRESS_PLACE, 108),
    PRINTED(BLIND_REACTION_DIAMETER_PLACE, 4900),
    PRINTED(BLIND_EFFECTIVE_WIDTH_PLACE, 500),
    PRINTED(BLIND_OPERATING_LOAD_PLACE, 2192505),
    PRINTED(BLIND_SEATING_LOAD_PLACE, 846230),
    PRINTED(BLIND_FLANGE_LOAD_PLACE, 2896253),
    PRINTED(BLIND_THICKNESS_PLACE, 3073),
    PRINTED(BLIND_EDGE_THICKNESS_PLACE, 1913),
    PRINTED(BLIND_TOTAL_PLACE, 3173),
    PRINTED(BLIND_PLATE_PLACE, 3200),
    RIBBED(BLIND_OPERATING_LOAD_PLACE, 2290505),
    RIBBED(BLIND_SEATING_LOAD_PLACE, 1115730),
    BLIND(100, 4900, 0, 20, PLACE_CAUSE, 17),
    BLIND(100, 0, 100, 20, PLACE_CAUSE, 17),
    FROM(2529, 30, 2530, 30, 2531, 30, END_PLATE_PLACE, 2530),
    FROM(3000, 0, 2529, 30, 2531, 30, END_PLATE_PLACE, 2531),
    FROM(3000, 500, 2600, 101, 2900, 30, END_PLATE_PLACE, 2900), /* 2600 less 101 is 2499 */
    FROM(3000, 500, 2600, 101, 3100, 0, END_PLATE_PLACE, 3000),
    FROM(2700, 201, 2700, 200, 2700, 0, END_PLATE_PLACE, 2700),
    FROM(2499, 0, 2500, 1, 2529, 30, PLACE_FIGURE, 2500),
    FROM(2500, 2500, 2500, 2501, 0, 999999, PLACE_CAUSE, 14),
};
const size_t known_count = sizeof known_cases / sizeof known_cases[0];

void known_question(const struct known *known, struct question *question)
{
    question->part = known->part;
    memcpy(question->numbers, known->numbers, sizeof question->numbers);
    give_plates(question, known->plates, KNOWN_PLATES);
}

#define END_WITH(material, temperature, pressure, diameter, allowance, plates)                          \
    "part=end\nform=c\nmaterial=" material "\nshell=1\ntemp=" temperature "\npressure=" pressure         \
    "\ndia=" diameter "\nallow=" allowance "\nplates=" plates "\n"
#define END_SHEET(pressure, plates) END_WITH("1", "150", pressure, "5000", "0", plates)
#define END_REPORT(total, plate) "stress=108\nneed=" total "\ntotal=" total "\nplate=" plate "\n"

#define BLIND_WITH(width, rib, m, circle, bolt, root, sa)                                               \
    "part=blind\nmaterial=1\ntemp=150\npressure=1000\nallow=100\nod=5000\nwidth=" width "\nrib=" rib    \
    "\nribw=0\nm=" m "\ny=110\ncircle=" circle "\nbolt=" bolt "\nroot=" root "\ncount=16\nsa=" sa       \
    "\nsb=100\nplates=2500,3200,4000\n"
#define PRINTED_SHEET BLIND_WITH("100", "0", "200", "5600", "20", "2250", "100")
#define PRINTED_REPORT                                                                                  \
    "stress=108\ncold=108\ng=4900\nb=500\nwm1=2192505\nwm2=846230\nw=2896253\nneed=3073\nedge=1913\n" \
    "total=3173\nplate=3200\n"

const struct known_sheet known_sheets[] = {
    {PRINTED_SHEET, PRINTED_REPORT},
    {"", "refused=1\nplace=1\n"},
    {END_SHEET("1080", ""), END_REPORT("2500", "3000")},
    {END_SHEET("1054", ""), END_REPORT("2470", "2500")},
    {END_SHEET("1055", ""), END_REPORT("2471", "3000")},
    {END_SHEET("1080", "2530:30"), END_REPORT("2500", "2530")},
    {END_SHEET("1080", "2530:31"), "refused=14\nplace=2500\n"},
    {END_SHEET("1080", "2530:31,2500"), END_REPORT("2500", "2500")},
    {END_SHEET("1080", "2500:0"), END_REPORT("2500", "2500")},
    {END_SHEET("1080", "2500:2501"), "refused=14\nplace=2500\n"},
    {END_SHEET("1080", "2530:"), "refused=1\nplace=9\n"},
    {END_SHEET("1080", ":30"), "refused=1\nplace=9\n"},
    {END_SHEET("1080", "2530:30:0"), "refused=1\nplace=9\n"},
    {END_SHEET("1080", "2530:03"), "refused=1\nplace=9\n"},
    {END_SHEET("1080", "2530: 30"), "refused=1\nplace=9\n"},
};
const size_t known_sheet_count = sizeof known_sheets / sizeof known_sheets[0];

/* An end, whose report has 43 bytes, and what is refused at a line in 18 or 19; the printed report has 108. */
#define ONE_END END_SHEET("1080", "2500")
#define ONE_REPORT END_REPORT("2500", "2500")
#define BAD_LINE(line) "refused=1\nplace=" line "\n"

/* An end, a sheet that stops too soon, and the printed flange. */
#define MONDAY ONE_END "part=end\nform=a\n" PRINTED_SHEET
#define ROOM 1000 /* more than any of these reports */

const struct known_book known_books[] = {
    {MONDAY, 64, ROOM, {0, 0, 3, 169}, ONE_REPORT BAD_LINE("3") PRINTED_REPORT},
    {MONDAY, 3, 169, {0, 0, 3, 169}, ONE_REPORT BAD_LINE("3") PRINTED_REPORT},
    {MONDAY, 2, ROOM, {0, 0, 2, 61}, ONE_REPORT BAD_LINE("3")},
    {MONDAY, 2, 61, {0, 0, 2, 61}, ONE_REPORT BAD_LINE("3")},
    {MONDAY, 1, ROOM, {0, 0, 1, 43}, ONE_REPORT},
    {MONDAY, 64, 168, {15, 169, 0, 0}, ""},
    {MONDAY, 2, 60, {15, 61, 0, 0}, ""},
    {MONDAY, 64, 0, {15, 169, 0, 0}, ""},
    {MONDAY, 0, ROOM, {16, 0, 0, 0}, ""},
    {MONDAY, 65, ROOM, {16, 0, 0, 0}, ""},
    {MONDAY, 0, 0, {16, 0, 0, 0}, ""},
    {"", 1, ROOM, {0, 0, 1, 18}, BAD_LINE("1")},
    {"", 64, 18, {0, 0, 1, 18}, BAD_LINE("1")},
    {"", 64, 17, {15, 18, 0, 0}, ""},
    {"", 65, 17, {16, 0, 0, 0}, ""},
    {ONE_END, 64, ROOM, {0, 0, 1, 43}, ONE_REPORT},
    {ONE_END ONE_END, 64, ROOM, {0, 0, 2, 86}, ONE_REPORT ONE_REPORT},
    {END_SHEET("1080", "none") ONE_END, 64, ROOM, {0, 0, 2, 65}, "refused=14\nplace=2500\n" ONE_REPORT},
    {ONE_END "part=", 64, ROOM, {0, 0, 2, 61}, ONE_REPORT BAD_LINE("1")},
    {ONE_END "part", 64, ROOM, {0, 0, 1, 19}, BAD_LINE("10")},
    {ONE_END "\npart=", 64, ROOM, {0, 0, 2, 37}, BAD_LINE("10") BAD_LINE("1")},
    {"\n" ONE_END, 64, ROOM, {0, 0, 2, 61}, BAD_LINE("1") ONE_REPORT},
    {"\n\npart=", 64, ROOM, {0, 0, 2, 36}, BAD_LINE("1") BAD_LINE("1")},
    {"\npart=\n\npart=", 64, ROOM, {0, 0, 3, 54}, BAD_LINE("1") BAD_LINE("1") BAD_LINE("1")},
    {"part=\npart=\npart=part=\npart=", 64, ROOM, {0, 0, 4, 72},
     BAD_LINE("1") BAD_LINE("1") BAD_LINE("1") BAD_LINE("1")},
    {"part\n" ONE_END, 64, ROOM, {0, 0, 2, 61}, BAD_LINE("1") ONE_REPORT},
    {"Orders:\n" ONE_END "\r\n" ONE_END, 64, ROOM, {0, 0, 3, 80}, BAD_LINE("1") BAD_LINE("10") ONE_REPORT},
    {END_SHEET("1080", "2500\r") ONE_END, 64, ROOM, {0, 0, 2, 61}, BAD_LINE("9") ONE_REPORT},
    {ONE_END "x" ONE_END, 64, ROOM, {0, 0, 1, 19}, BAD_LINE("10")},
    {ONE_END " " ONE_END, 64, ROOM, {0, 0, 1, 19}, BAD_LINE("10")},
    {ONE_END "\r" ONE_END, 64, ROOM, {0, 0, 1, 19}, BAD_LINE("10")},
    {ONE_END "Part=end\nform=c\n", 64, ROOM, {0, 0, 1, 19}, BAD_LINE("10")},
    {ONE_END "part:end\nform=c\n", 64, ROOM, {0, 0, 1, 19}, BAD_LINE("10")},
    {END_SHEET("part=", "2500") ONE_END, 64, ROOM, {0, 0, 2, 61}, BAD_LINE("6") ONE_REPORT},
    {"part=end part=end part=end", 64, ROOM, {0, 0, 1, 18}, BAD_LINE("1")},
    {"part=end\rpart=end\rpart=end", 64, ROOM, {0, 0, 1, 18}, BAD_LINE("1")},
};
const size_t known_book_count = sizeof known_books / sizeof known_books[0];

/* ---- Summaries ---- */

/* A sheet refused by each cause, from 1 on; 17 is the last. */
#define BY_1 "part=end\nform=a\n"
#define BY_14 END_SHEET("1080", "none")
#define BY_17 BLIND_WITH("100", "4900", "200", "5600", "20", "2250", "100")
#define ONE_BY_EACH                                                                                     \
    BY_1 END_WITH("7", "150", "1080", "5000", "0", "4000") END_SHEET("0", "4000")                        \
    END_WITH("1", "301", "1080", "5000", "0", "4000") END_WITH("6", "201", "1080", "5000", "0", "4000")  \
    END_WITH("1", "150", "1080", "499", "0", "4000") END_WITH("1", "150", "1080", "5000", "1001", "4000") \
    BLIND_WITH("99", "0", "200", "5600", "20", "2250", "100")                                           \
    BLIND_WITH("100", "0", "651", "5600", "20", "2250", "100")                                          \
    BLIND_WITH("100", "0", "200", "5600", "11", "2250", "100")                                          \
    BLIND_WITH("100", "0", "200", "5600", "20", "2250", "0")                                            \
    BLIND_WITH("100", "0", "200", "5199", "20", "2250", "100")                                          \
    BLIND_WITH("100", "0", "200", "5600", "20", "1", "100") BY_14 BY_17

/* Ends of the README, whose plate is 250 more than the total, and with the least total, 7, from one plate. */
#define README_END                                                                                      \
    "part=end\nform=c\nmaterial=1\nshell=2\ntemp=150\npressure=1000\ndia=5000\nallow=100\n"              \
    "plates=2000,2500,3000\n"
#define LEAST_END(plate)                                                                                \
    "part=end\nform=a\nmaterial=5\nshell=0\ntemp=50\npressure=1\ndia=500\nallow=0\nplates=" plate "\n"

#define COUNTS(pieces, accepted, refused, by_1, by_2_to_13, by_14, by_17)                               \
    "pieces=" pieces "\naccepted=" accepted "\nrefused=" refused "\nrefused1=" by_1 "\n"                \
    "refused2=" by_2_to_13 "\nrefused3=" by_2_to_13 "\nrefused4=" by_2_to_13 "\n"                      \
    "refused5=" by_2_to_13 "\nrefused6=" by_2_to_13 "\nrefused7=" by_2_to_13 "\n"                      \
    "refused8=" by_2_to_13 "\nrefused9=" by_2_to_13 "\nrefused10=" by_2_to_13 "\n"                     \
    "refused11=" by_2_to_13 "\nrefused12=" by_2_to_13 "\nrefused13=" by_2_to_13 "\n"                   \
    "refused14=" by_14 "\nrefused17=" by_17 "\n"
#define NOTHING "sum=0\n"
#define EXCESS(sum, least, greatest) "sum=" sum "\nleast=" least "\ngreatest=" greatest "\n"

/* All accepted, or all refused by 1. */
#define ALL_ACCEPTED(pieces) COUNTS(pieces, pieces, "0", "0", "0", "0", "0")
#define ALL_REFUSED(pieces) COUNTS(pieces, "0", pieces, pieces, "0", "0", "0") NOTHING

/* The plate of the printed flange is 27 more than its total. */
const struct known_summary known_summaries[] = {
    {"", "", 0, "", ALL_REFUSED("1")},
    {"part=", "", 0, "", ALL_REFUSED("1")},
    {"\npart=", "", 0, "", ALL_REFUSED("2")},
    {README_END, "", 0, "", ALL_ACCEPTED("1") EXCESS("250", "250", "250")},
    {PRINTED_SHEET, "", 0, "", ALL_ACCEPTED("1") EXCESS("27", "27", "27")},
    {ONE_END, "", 0, "", ALL_ACCEPTED("1") EXCESS("0", "0", "0")},
    {END_SHEET("1080", ""), "", 0, "", ALL_ACCEPTED("1") EXCESS("500", "500", "500")},
    {END_SHEET("1080", "2530:30"), "", 0, "", ALL_ACCEPTED("1") EXCESS("30", "30", "30")},
    {END_SHEET("1080", "2800:300,2790"), "", 0, "", ALL_ACCEPTED("1") EXCESS("290", "290", "290")},
    {BY_14, "", 0, "", COUNTS("1", "0", "1", "0", "0", "1", "0") NOTHING},
    {BY_17, "", 0, "", COUNTS("1", "0", "1", "0", "0", "0", "1") NOTHING},
    {BY_1 BY_14 BY_17, "", 0, "", COUNTS("3", "0", "3", "1", "0", "1", "1") NOTHING},
    {ONE_BY_EACH, "", 0, "", COUNTS("15", "0", "15", "1", "1", "1", "1") NOTHING},
    {ONE_END ONE_BY_EACH PRINTED_SHEET, "", 0, "",
     COUNTS("17", "2", "15", "1", "1", "1", "1") EXCESS("27", "0", "27")},
    {README_END BY_14 PRINTED_SHEET BY_17, "", 0, "",
     COUNTS("4", "2", "2", "0", "0", "1", "1") EXCESS("277", "27", "250")},
    {BY_17 PRINTED_SHEET BY_14 README_END, "", 0, "",
     COUNTS("4", "2", "2", "0", "0", "1", "1") EXCESS("277", "27", "250")},
    {README_END ONE_END PRINTED_SHEET, "", 0, "", ALL_ACCEPTED("3") EXCESS("277", "0", "250")},
    {"Orders\n" README_END, "", 0, "", COUNTS("2", "1", "1", "1", "0", "0", "0") EXCESS("250", "250", "250")},
    {README_END "part=", "", 0, "", COUNTS("2", "1", "1", "1", "0", "0", "0") EXCESS("250", "250", "250")},
    {README_END "part", "", 0, "", ALL_REFUSED("1")},
    {"", "part=x\n", 9, "", ALL_REFUSED("9")},
    {"", "part=x\n", 10, "", ALL_REFUSED("10")},
    {"", "part=x\n", 63, "", ALL_REFUSED("63")},
    {"", "part=x\n", 64, "", ALL_REFUSED("64")},
    {"", "part=x\n", 65, "", ALL_REFUSED("64")},
    {"", "part=x\n", 63, README_END, COUNTS("64", "1", "63", "63", "0", "0", "0") EXCESS("250", "250", "250")},
    {"", "part=x\n", 64, README_END, ALL_REFUSED("64")},
    {README_END, "part=x\n", 62, PRINTED_SHEET,
     COUNTS("64", "2", "62", "62", "0", "0", "0") EXCESS("277", "27", "250")},
    {README_END, "part=x\n", 63, PRINTED_SHEET,
     COUNTS("64", "1", "63", "63", "0", "0", "0") EXCESS("250", "250", "250")},
    {"", README_END, 63, PRINTED_SHEET, ALL_ACCEPTED("64") EXCESS("15777", "27", "250")},
    {"", README_END, 64, PRINTED_SHEET, ALL_ACCEPTED("64") EXCESS("16000", "250", "250")},
    {"", README_END, 64, BY_17, ALL_ACCEPTED("64") EXCESS("16000", "250", "250")},
    {LEAST_END("7"), LEAST_END("999999"), 62, LEAST_END("8"), ALL_ACCEPTED("64") EXCESS("61999505", "0", "999992")},
    {"", LEAST_END("999999"), 64, "", ALL_ACCEPTED("64") EXCESS("63999488", "999992", "999992")},
};
const size_t known_summary_count = sizeof known_summaries / sizeof known_summaries[0];
