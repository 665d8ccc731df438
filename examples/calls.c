/* The calls of scantling.h, as a drawing program makes them. The README has the command that builds and runs this. */
#include "scantling.h"

#include <stdio.h>
#include <string.h>

/* Plates, two numbers each: nominal thickness and minus tolerance, hundredths of a mm. The first three have no minus, the
   others may be 0.30 mm thinner. Below them the bytes in which the calls take them. */
static const uint32_t exact_numbers[] = {2500, 0, 3200, 0, 4000, 0};
static const uint32_t mill_numbers[] = {2500, 30, 2520, 30, 2540, 30};
static uint8_t plates[3 * SCANTLING_PLATE_BYTES], mill_plates[3 * SCANTLING_PLATE_BYTES];

/* Bolts M16, M20 and M24: diameters, mm, and root areas, tenths of mm2. */
static const uint32_t diameter_numbers[] = {16, 20, 24};
static const uint32_t area_numbers[] = {1440, 2250, 3240};
static uint8_t diameters[3 * SCANTLING_BOLT_NUMBER_BYTES], areas[3 * SCANTLING_BOLT_NUMBER_BYTES];

/* Packs the numbers of a list for the calls: four bytes each, lowest first. */
static void pack(const uint32_t *from, size_t count, uint8_t *to)
{
    size_t i;

    for (i = 0; i < 4 * count; i++)
        to[i] = (uint8_t)(from[i / 4] >> (8 * (i % 4)) & 0xFF);
}

/* The end of a shell of 500 mm inside diameter, form c, carbon steel, 1 N/mm2, 150 degrees C, 1 mm allowance. */
static unsigned long endplate(uint32_t place)
{
    return (unsigned long)scantling_endplate(2, 1, 1, 150, 1000, 5000, 100, plates, sizeof plates, place);
}

/* The blind flange of examples/blind-flange.sheet: the two zeros after the width say that it has no rib. */
static unsigned long blind_flange(uint32_t place)
{
    return (unsigned long)scantling_blind_flange(
        1, 150, 1000, 100, 5000, 100, 0, 0, 200, 110, 5600, 20, 2250, 16, 100, 100, plates, sizeof plates, place);
}

/* The same flange with bolts of these sizes, the first that fit. */
static unsigned long blind_flange_bolts(uint32_t place)
{
    return (unsigned long)scantling_blind_flange_bolts(
        1, 150, 1000, 100, 5000, 100, 0, 0, 200, 110, 5600, 100, 100, diameters, sizeof diameters, areas, sizeof areas,
        plates, sizeof plates, place);
}

/* The same end from plates with a minus. */
static unsigned long endplate_mill(uint32_t place)
{
    return (unsigned long)scantling_endplate(
        2, 1, 1, 150, 1000, 5000, 100, mill_plates, sizeof mill_plates, place);
}

/* The same end from the usual stock: the call takes no list. */
static unsigned long endplate_standard(uint32_t place)
{
    return (unsigned long)scantling_endplate_standard(2, 1, 1, 150, 1000, 5000, 100, place);
}

/* The same flange from the usual stock. */
static unsigned long blind_flange_standard(uint32_t place)
{
    return (unsigned long)scantling_blind_flange_standard(
        1, 150, 1000, 100, 5000, 100, 0, 0, 200, 110, 5600, 20, 2250, 16, 100, 100, place);
}

/* The total of the end, asked for with no plate to choose from. */
static unsigned long endplate_total(void)
{
    return (unsigned long)scantling_endplate(2, 1, 1, 150, 1000, 5000, 100, NULL, 0, SCANTLING_FIGURE);
}

/* A support plate of 600 mm for steel tubes of 19 mm, held so many mm from the next. */
static unsigned long support_plate(uint32_t span, uint32_t place)
{
    return (unsigned long)scantling_support_plate(19, SCANTLING_GROUP_STEEL, span, 600, place);
}

/* At 1200 mm, and a millimetre past the longest span. */
static void print_support_plate(void)
{
    if (support_plate(1200, SCANTLING_CAUSE) == SCANTLING_ACCEPTED)
        printf("support plate: longest span %lu mm, thickness %lu mm\n",
               support_plate(1200, SCANTLING_SUPPORT_PLATE_LONGEST_SPAN),
               support_plate(1200, SCANTLING_SUPPORT_PLATE_THICKNESS));
    printf("support plate at 1501 mm: refused by %lu\n", support_plate(1501, SCANTLING_CAUSE));
}

/* Three sheets in one text: the end, one that stops too soon, and the same end from the usual stock. */
static const uint8_t book[] =
    "part=end\nform=c\nmaterial=1\nshell=1\ntemp=150\npressure=1000\ndia=5000\nallow=100\nplates=2500,3200,4000\n"
    "part=end\nform=c\n"
    "part=end\nform=c\nmaterial=1\nshell=1\ntemp=150\npressure=1000\ndia=5000\nallow=100\nplates=\n";
static uint8_t reports[SCANTLING_LONGEST_BATCH];

/* At most so many sheets of the book; their reports are written, whatever the place. */
static unsigned long batch(uint32_t limit, uint32_t place)
{
    return (unsigned long)scantling_batch(book, sizeof book - 1, limit, reports, sizeof reports, place);
}

/* The book's summary from the line sum= on. A summary has no 0 at its end; one byte is kept for that. */
static void print_excess(void)
{
    uint8_t summary[SCANTLING_LONGEST_SUMMARY + 1];
    const size_t length = scantling_summary(book, sizeof book - 1, summary, sizeof summary - 1);

    summary[length] = 0;
    printf("plate less total over its accepted sheets:%s", strstr((const char *)summary, "\nsum="));
}

int main(void)
{
    static const uint8_t text[] = "part=end\nform=a\n"; /* a sheet that ends too soon */
    uint8_t report[SCANTLING_LONGEST_REPORT];
    size_t length = scantling_sheet(text, sizeof text - 1, report, sizeof report);

    pack(exact_numbers, sizeof exact_numbers / sizeof exact_numbers[0], plates);
    pack(mill_numbers, sizeof mill_numbers / sizeof mill_numbers[0], mill_plates);
    pack(diameter_numbers, sizeof diameter_numbers / sizeof diameter_numbers[0], diameters);
    pack(area_numbers, sizeof area_numbers / sizeof area_numbers[0], areas);
    if (endplate(SCANTLING_CAUSE) == SCANTLING_ACCEPTED)
        printf("endplate: thickness %lu, plate %lu\n", endplate(SCANTLING_ENDPLATE_THICKNESS),
               endplate(SCANTLING_ENDPLATE_PLATE));
    if (blind_flange(SCANTLING_CAUSE) == SCANTLING_ACCEPTED)
        printf("blind flange: thickness %lu, edge %lu, plate %lu, load %lu.%lu N\n",
               blind_flange(SCANTLING_BLIND_FLANGE_THICKNESS), blind_flange(SCANTLING_BLIND_FLANGE_EDGE_THICKNESS),
               blind_flange(SCANTLING_BLIND_FLANGE_PLATE), blind_flange(SCANTLING_BLIND_FLANGE_FLANGE_LOAD) / 10,
               blind_flange(SCANTLING_BLIND_FLANGE_FLANGE_LOAD) % 10);
    if (blind_flange_bolts(SCANTLING_CAUSE) == SCANTLING_ACCEPTED)
        printf("with bolts chosen: bolt %lu, root area %lu, count %lu, plate %lu\n",
               blind_flange_bolts(SCANTLING_BLIND_FLANGE_BOLT), blind_flange_bolts(SCANTLING_BLIND_FLANGE_ROOT),
               blind_flange_bolts(SCANTLING_BLIND_FLANGE_COUNT), blind_flange_bolts(SCANTLING_BLIND_FLANGE_PLATE));
    printf("from plates with a minus: endplate %lu\n", endplate_mill(SCANTLING_ENDPLATE_PLATE));
    printf("from the usual stock: endplate %lu, blind flange %lu\n", endplate_standard(SCANTLING_ENDPLATE_PLATE),
           blind_flange_standard(SCANTLING_BLIND_FLANGE_PLATE));
    printf("endplate without a plate: total %lu\n", endplate_total());
    print_support_plate();
    fwrite(report, 1, length, stdout);
    printf("book: the first 2 sheets have reports of %lu bytes, all %lu sheets these:\n",
           batch(2, SCANTLING_BATCH_LENGTH), batch(SCANTLING_MOST_SHEETS, SCANTLING_BATCH_COUNT));
    fwrite(reports, 1, batch(SCANTLING_MOST_SHEETS, SCANTLING_BATCH_LENGTH), stdout);
    print_excess();
    printf("least root of 5000: %lu\n", (unsigned long)scantling_least_root(5000));
    return 0;
}
