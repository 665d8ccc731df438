/* Documents 01 and 02: design stress, endplates, blind flanges, plates, and the causes 2 to 14 and 17. */
#include "paper.h"

#include <stdlib.h>
#include <string.h>

/* ---- Design stress (Table 1) ---- */

static const uint32_t column_temperatures[9] = {50, 100, 150, 175, 200, 225, 250, 275, 300};

static const uint32_t stresses[11][9] = {
    {108, 108, 108, 108, 108, 104, 100, 93, 91}, /* 1 carbon steel plate */
    {114, 102, 89, 85, 81, 78, 76, 74, 72},      /* 2 stainless plate 304S11 */
    {122, 109, 95, 91, 87, 84, 82, 80, 78},      /* 3 304S31 */
    {120, 107, 95, 91, 88, 85, 82, 80, 79},      /* 4 316S11 */
    {128, 114, 102, 98, 94, 91, 89, 87, 85},     /* 5 316S31 */
    {48, 46, 34, 26, 18, 0, 0, 0, 0},            /* 6 copper plate C106 */
    {41, 40, 34, 26, 18, 0, 0, 0, 0},            /* 7 copper tube C106 */
    {97, 92, 89, 63, 60, 58, 54, 49, 44},        /* 8 90/10 CuNi plate */
    {75, 73, 71, 63, 60, 58, 54, 49, 44},        /* 9 90/10 CuNi tube */
    {117, 109, 105, 76, 75, 73, 72, 71, 70},     /* 10 70/30 CuNi plate */
    {93, 87, 84, 76, 75, 73, 72, 71, 70},        /* 11 70/30 CuNi tube */
};

uint32_t paper_design_stress(uint32_t material, uint32_t temperature)
{
    if (material < 1 || material > 11)
        return 0;
    for (int column = 0; column < 9; column++)
        if (temperature <= column_temperatures[column])
            return stresses[material - 1][column];
    return 0;
}

/* ---- Least whole numbers ---- */

uint64_t paper_least_quotient(u128 a, u128 b)
{
    u128 low = 0, high = b; /* x = b satisfies it */
    if (a == 0 || (b > 0 && a > ~(u128)0 / b))
        abort();
    while (low < high) {
        u128 x = (low + high) / 2;
        if (a * x >= b)
            high = x;
        else
            low = x + 1;
    }
    return (uint64_t)low;
}

uint64_t paper_least_root(u128 a, u128 b)
{
    u128 low = 0, high = (u128)1 << 32; /* its square is 2^64; an x that is tried is below it */
    if (a == 0 || a > UINT64_MAX || b > UINT64_MAX)
        abort();
    while (low < high) {
        u128 x = (low + high) / 2;
        if (a * x * x >= b)
            high = x;
        else
            low = x + 1;
    }
    return (uint64_t)low;
}

/* ---- Endplates (8.3.4) ---- */

uint32_t paper_endplate_design_stress(const uint32_t n[END_NUMBERS])
{
    uint32_t plate = paper_design_stress(n[END_MATERIAL], n[END_TEMPERATURE]);
    uint32_t shell = paper_design_stress(n[END_SHELL], n[END_TEMPERATURE]);
    if (n[END_FORM] == FORM_A)
        return plate;
    return plate < shell ? plate : shell;
}

/* T, the need, from F, P and d, of an endplate that meets none of the causes 2 to 7. */
static uint64_t endplate_thickness(const uint32_t n[])
{
    const u128 design_stress = paper_endplate_design_stress(n);
    const u128 pressure = n[END_PRESSURE], diameter = n[END_DIAMETER];
    if (n[END_FORM] == FORM_D)
        return paper_least_root(30 * design_stress, pressure * diameter * diameter);
    return paper_least_root(40 * design_stress, pressure * diameter * diameter);
}

/* ---- Blind flanges ---- */

/* k, tenths of a mm, from n, the width of the ring or of the rib. */
static u128 root_width(u128 width)
{
    return paper_least_root(1000, 31752 * width);
}

/* b, likewise. */
static u128 effective_width(u128 width)
{
    return width <= 126 ? 5 * width : 10 * root_width(width);
}

/*
 * From od, n (width), rib, ribw, m, y and P. The rib's part of Wm1 is 2 * b * rib * m * P / 10^7 tenths of a newton, that
 * of Wm2 b * rib * y / 10^3.
 */
struct paper_gasket paper_gasket(const uint32_t n[BLIND_NUMBERS])
{
    const u128 od = n[BLIND_OD], width = n[BLIND_WIDTH], m = n[BLIND_M], y = n[BLIND_Y], pressure = n[BLIND_PRESSURE];
    const u128 b = effective_width(width), reaction_diameter = width <= 126 ? od - width : od - 2 * root_width(width);
    const u128 rib_b = effective_width(n[BLIND_RIB_WIDTH]), rib = n[BLIND_RIB];
    struct paper_gasket gasket;
    gasket.effective_width = b;
    gasket.rib_effective_width = rib_b;
    gasket.reaction_diameter = reaction_diameter;
    gasket.operating_load = paper_least_quotient(
        1000000000,
        78500 * reaction_diameter * reaction_diameter * pressure + 628 * b * reaction_diameter * m * pressure +
            100 * (2 * rib_b * rib * m * pressure));
    gasket.seating_load = paper_least_quotient(100000, 314 * b * reaction_diameter * y + 100 * (rib_b * rib * y));
    return gasket;
}

/* A */
static u128 bolt_area(const uint32_t n[])
{
    return (u128)n[BLIND_COUNT] * n[BLIND_ROOT];
}

/* The bolts carry. */
static int bolts_sufficient(const uint32_t n[], const struct paper_gasket *gasket)
{
    const u128 sa = n[BLIND_SA], sb = n[BLIND_SB];
    return bolt_area(n) * sb >= gasket->operating_load && bolt_area(n) * sa >= gasket->seating_load;
}

/* W, for bolts that meet neither 10 nor 11. */
static uint64_t flange_load(const uint32_t n[], const struct paper_gasket *gasket)
{
    const u128 sa = n[BLIND_SA], sb = n[BLIND_SB];
    const u128 operating = gasket->operating_load * sa, seating = gasket->seating_load * sb;
    return paper_least_quotient(2 * sb, (operating > seating ? operating : seating) + bolt_area(n) * sa * sb);
}

/* The need e, from S, G, P, Wm1 and C, of a blind flange that meets none of the causes 2 to 12. */
static uint64_t blind_flange_thickness(const uint32_t n[], const struct paper_gasket *gasket)
{
    const u128 design_stress = paper_design_stress(n[BLIND_MATERIAL], n[BLIND_TEMPERATURE]);
    const u128 pressure = n[BLIND_PRESSURE], circle = n[BLIND_CIRCLE], reaction_diameter = gasket->reaction_diameter;
    return paper_least_root(
        100 * design_stress * reaction_diameter,
        3 * reaction_diameter * reaction_diameter * reaction_diameter * pressure +
            95450 * gasket->operating_load * (circle - reaction_diameter));
}

/* The edge, from S0, S, G, W, Wm1 and C, of a blind flange that meets none of the causes 2 to 12. */
static uint64_t blind_flange_edge_thickness(const uint32_t n[], const struct paper_gasket *gasket, u128 load)
{
    const u128 design_stress = paper_design_stress(n[BLIND_MATERIAL], n[BLIND_TEMPERATURE]);
    const u128 ambient_stress = paper_design_stress(n[BLIND_MATERIAL], 50);
    const u128 circle = n[BLIND_CIRCLE], reaction_diameter = gasket->reaction_diameter;
    uint64_t ambient =
        paper_least_root(100 * ambient_stress * reaction_diameter, 95450 * load * (circle - reaction_diameter));
    uint64_t operating = paper_least_root(
        100 * design_stress * reaction_diameter, 95450 * gasket->operating_load * (circle - reaction_diameter));
    return ambient > operating ? ambient : operating;
}

/* ---- Plates ---- */

const struct paper_plate paper_standard_plates[PAPER_STANDARD_PLATES] = {
    {300, 30}, {400, 30}, {500, 30}, {600, 30}, {800, 30}, {1000, 30}, {1200, 30}, {1500, 30}, {2000, 30}, {2500, 30},
    {3000, 30}, {4000, 30}, {5000, 30}};

int64_t paper_least_thickness(struct paper_plate plate)
{
    return (int64_t)plate.thickness - (int64_t)plate.under_tolerance;
}

/* A thickness below 0 serves no total, not even 0. */
int paper_serves(struct paper_plate plate, uint64_t total)
{
    const int64_t least = paper_least_thickness(plate);
    return least >= 0 && (uint64_t)least >= total;
}

const struct paper_plate *paper_smallest_serving(const struct paper_plate *plates, size_t count, uint64_t total)
{
    const struct paper_plate *chosen = NULL;
    for (size_t i = 0; i < count; i++)
        if (paper_serves(plates[i], total) && (chosen == NULL || plates[i].thickness < chosen->thickness))
            chosen = &plates[i];
    return chosen;
}

static uint32_t read_four(const uint8_t bytes[4])
{
    return (uint32_t)bytes[0] | (uint32_t)bytes[1] << 8 | (uint32_t)bytes[2] << 16 | (uint32_t)bytes[3] << 24;
}

size_t paper_plates(const uint8_t *bytes, size_t length, struct paper_plate *plates, size_t room)
{
    size_t count = 0;
    for (size_t at = 0; length - at >= PAPER_PLATE_BYTES && count < room; at += PAPER_PLATE_BYTES) {
        plates[count].thickness = read_four(bytes + at);
        plates[count++].under_tolerance = read_four(bytes + at + 4);
    }
    return count;
}

size_t paper_numbers(const uint8_t *bytes, size_t length, uint32_t *numbers, size_t room)
{
    size_t count = 0;
    for (; count < length / PAPER_NUMBER_BYTES && count < room; count++)
        numbers[count] = read_four(bytes + PAPER_NUMBER_BYTES * count);
    return count;
}

/* ---- Causes 2 to 14 in rising order, 17 right after 8 ---- */

static int is_plate_material(uint32_t material)
{
    return material >= 1 && material <= 11 && material != 7 && material != 9 && material != 11;
}

/* Causes 3 to 7, which both parts share. */
static int shared_cause(
    uint32_t pressure, uint32_t temperature, uint32_t design_stress, uint32_t diameter, uint32_t allowance)
{
    if (pressure == 0 || pressure > 2000)
        return CAUSE_PRESSURE;
    if (temperature > 300)
        return CAUSE_TEMPERATURE;
    if (design_stress == 0)
        return CAUSE_DESIGN_STRESS;
    if (diameter < 500 || diameter > 30000)
        return CAUSE_DIAMETER;
    if (allowance > 1000)
        return CAUSE_ALLOWANCE;
    return CAUSE_NONE;
}

static int endplate_cause(const uint32_t n[])
{
    if (n[END_FORM] != FORM_A && n[END_FORM] != FORM_C && n[END_FORM] != FORM_D)
        return CAUSE_MATERIAL;
    if (!is_plate_material(n[END_MATERIAL]) || n[END_SHELL] > 11 || (n[END_SHELL] == 0) != (n[END_FORM] == FORM_A))
        return CAUSE_MATERIAL;
    return shared_cause(
        n[END_PRESSURE], n[END_TEMPERATURE], paper_endplate_design_stress(n), n[END_DIAMETER], n[END_ALLOWANCE]);
}

/* Causes 8, 17 and 9. */
static int gasket_cause(const uint32_t n[])
{
    const u128 od = n[BLIND_OD], width = n[BLIND_WIDTH], m = n[BLIND_M], y = n[BLIND_Y];
    const uint32_t rib = n[BLIND_RIB], rib_width = n[BLIND_RIB_WIDTH];
    if (width < 100 || width > 500 || 4 * width > od)
        return CAUSE_WIDTH;
    if ((rib == 0 && rib_width > 0) || (rib > 0 && rib_width == 0) || rib > 40000 || rib_width > 500)
        return CAUSE_RIB;
    if (m > 650 || y > 1800)
        return CAUSE_GASKET;
    return CAUSE_NONE;
}

/* Causes 10 and 11. */
static int bolt_cause(const uint32_t n[])
{
    const u128 bolt = n[BLIND_BOLT], root = n[BLIND_ROOT], count = n[BLIND_COUNT], sa = n[BLIND_SA], sb = n[BLIND_SB];
    if (bolt < 12 || bolt > 76 || root == 0 || 100 * root > 785 * bolt * bolt || count < 4 || count > 100)
        return CAUSE_BOLTS;
    if (sa == 0 || sa > 400 || sb == 0 || sb > 400 || sa > 4 * sb)
        return CAUSE_BOLT_STRESS;
    return CAUSE_NONE;
}

/* Causes 12 and 13. */
static int load_cause(const uint32_t n[], const struct paper_gasket *gasket)
{
    const u128 od = n[BLIND_OD], bolt = n[BLIND_BOLT], circle = n[BLIND_CIRCLE];
    if (circle < od + 10 * bolt || 2 * circle > 3 * gasket->reaction_diameter)
        return CAUSE_CIRCLE;
    return bolts_sufficient(n, gasket) ? CAUSE_NONE : CAUSE_OVERLOAD;
}

/* Causes 2 to 13 and 17. gasket is set where they reach 12. */
static int blind_flange_cause(const uint32_t n[], struct paper_gasket *gasket)
{
    int cause = is_plate_material(n[BLIND_MATERIAL]) ? CAUSE_NONE : CAUSE_MATERIAL;
    if (cause == CAUSE_NONE)
        cause = shared_cause(
            n[BLIND_PRESSURE], n[BLIND_TEMPERATURE],
            paper_design_stress(n[BLIND_MATERIAL], n[BLIND_TEMPERATURE]), n[BLIND_OD], n[BLIND_ALLOWANCE]);
    if (cause == CAUSE_NONE)
        cause = gasket_cause(n);
    if (cause == CAUSE_NONE)
        cause = bolt_cause(n);
    if (cause != CAUSE_NONE)
        return cause;
    *gasket = paper_gasket(n);
    return load_cause(n, gasket);
}

/* ---- Figures by place ---- */

static void refuse(uint64_t figures[], int cause, uint64_t figure)
{
    memset(figures, 0, PAPER_PLACES * sizeof figures[0]);
    figures[PLACE_CAUSE] = (uint64_t)cause;
    figures[PLACE_FIGURE] = figure;
}

const struct paper_plate *paper_endplate(
    const uint32_t n[], const struct paper_plate *plates, size_t count, uint64_t figures[PAPER_PLACES])
{
    int cause = endplate_cause(n);
    refuse(figures, cause, 0);
    if (cause != CAUSE_NONE)
        return NULL;
    uint64_t thickness = endplate_thickness(n);
    uint64_t total = thickness + n[END_ALLOWANCE];
    const struct paper_plate *plate = paper_smallest_serving(plates, count, total);
    if (plate == NULL) {
        refuse(figures, CAUSE_PLATE, total);
        return NULL;
    }
    figures[END_DESIGN_STRESS_PLACE] = paper_endplate_design_stress(n);
    figures[END_THICKNESS_PLACE] = thickness;
    figures[END_TOTAL_PLACE] = total;
    figures[END_PLATE_PLACE] = plate->thickness;
    return plate;
}

const struct paper_plate *paper_blind_flange(
    const uint32_t n[], const struct paper_plate *plates, size_t count, uint64_t figures[PAPER_PLACES])
{
    struct paper_gasket gasket;
    int cause = blind_flange_cause(n, &gasket);
    refuse(figures, cause, 0);
    if (cause != CAUSE_NONE)
        return NULL;
    uint64_t load = flange_load(n, &gasket);
    uint64_t thickness = blind_flange_thickness(n, &gasket);
    uint64_t edge_thickness = blind_flange_edge_thickness(n, &gasket, load);
    uint64_t total = (thickness > edge_thickness ? thickness : edge_thickness) + n[BLIND_ALLOWANCE];
    const struct paper_plate *plate = paper_smallest_serving(plates, count, total);
    if (plate == NULL) {
        refuse(figures, CAUSE_PLATE, total);
        return NULL;
    }
    figures[BLIND_DESIGN_STRESS_PLACE] = paper_design_stress(n[BLIND_MATERIAL], n[BLIND_TEMPERATURE]);
    figures[BLIND_AMBIENT_STRESS_PLACE] = paper_design_stress(n[BLIND_MATERIAL], 50);
    figures[BLIND_REACTION_DIAMETER_PLACE] = (uint64_t)gasket.reaction_diameter;
    figures[BLIND_EFFECTIVE_WIDTH_PLACE] = (uint64_t)gasket.effective_width;
    figures[BLIND_OPERATING_LOAD_PLACE] = (uint64_t)gasket.operating_load;
    figures[BLIND_SEATING_LOAD_PLACE] = (uint64_t)gasket.seating_load;
    figures[BLIND_FLANGE_LOAD_PLACE] = load;
    figures[BLIND_THICKNESS_PLACE] = thickness;
    figures[BLIND_EDGE_THICKNESS_PLACE] = edge_thickness;
    figures[BLIND_TOTAL_PLACE] = total;
    figures[BLIND_PLATE_PLACE] = plate->thickness;
    return plate;
}
