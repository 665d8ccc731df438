/*
 * Document 01, the accuracy demand: the exact inequalities, multiplied out until no fraction is left.
 *
 * The numbers were accepted, so each side fits 128 bits for a thickness up to LARGEST; a greater one is judged wrong
 * unseen.
 */
#include "paper.h"

#define LARGEST 1000000 /* hundredths of a mm */
#define NEAR_FROM 50    /* likewise */

#define TEN_5 UINT64_C(100000)
#define TEN_10 UINT64_C(10000000000)
#define TEN_12 UINT64_C(1000000000000)
#define TEN_13 UINT64_C(10000000000000)

/* 40 (form d: 30) * F * T^2 >= P * d^2 */
static int endplate_holds(const uint32_t n[], u128 thickness)
{
    const u128 design_stress = paper_endplate_design_stress(n);
    const u128 pressure = n[END_PRESSURE], diameter = n[END_DIAMETER];
    if (n[END_FORM] == FORM_D)
        return 30 * design_stress * thickness * thickness >= pressure * diameter * diameter;
    return 40 * design_stress * thickness * thickness >= pressure * diameter * diameter;
}

int paper_endplate_exact(const uint32_t n[], const uint64_t figures[PAPER_PLACES])
{
    const uint64_t thickness = figures[END_THICKNESS_PLACE];
    if (thickness == 0 || thickness > LARGEST)
        return 0;
    return endplate_holds(n, thickness) && !endplate_holds(n, thickness - 1);
}

struct exact_flange {
    u128 design_stress;     /* S */
    u128 ambient_stress;    /* S0 */
    u128 pressure;          /* P */
    u128 reaction_diameter; /* G */
    u128 overhang;          /* C - G */
    u128 sb;
    u128 operating_load;    /* V1, exact Wm1 in newtons, times 10^10 */
    u128 flange_load;       /* V, exact W in newtons, times 2 * 10^11 * sb */
};

/* seating_load is V2, exact Wm2 in newtons, times 10^6. The rib's parts are 2 * b * rib * m * P and b * rib * y. */
static struct exact_flange exact_flange(const uint32_t n[])
{
    const struct paper_gasket gasket = paper_gasket(n);
    const u128 effective_width = gasket.effective_width, reaction_diameter = gasket.reaction_diameter;
    const u128 bolt_area = (u128)n[BLIND_COUNT] * n[BLIND_ROOT];
    const u128 m = n[BLIND_M], y = n[BLIND_Y], sa = n[BLIND_SA], sb = n[BLIND_SB], pressure = n[BLIND_PRESSURE];
    const u128 rib_area = gasket.rib_effective_width * n[BLIND_RIB]; /* thousandths of mm2 */
    const u128 operating_load = 78500 * reaction_diameter * reaction_diameter * pressure +
                                628 * effective_width * reaction_diameter * m * pressure + 200 * rib_area * m * pressure;
    const u128 seating_load = 314 * effective_width * reaction_diameter * y + 100 * rib_area * y;
    const u128 operating = 10 * operating_load * sa, seating = TEN_5 * seating_load * sb;
    struct exact_flange flange;
    flange.design_stress = paper_design_stress(n[BLIND_MATERIAL], n[BLIND_TEMPERATURE]);
    flange.ambient_stress = paper_design_stress(n[BLIND_MATERIAL], 50);
    flange.pressure = pressure;
    flange.reaction_diameter = reaction_diameter;
    flange.overhang = n[BLIND_CIRCLE] - reaction_diameter;
    flange.sb = sb;
    flange.operating_load = operating_load;
    flange.flange_load = (operating > seating ? operating : seating) + TEN_10 * bolt_area * sa * sb;
    return flange;
}

/* 10^12 * S * G * e^2 >= 3 * 10^10 * G^3 * P + 954500 * V1 * (C - G) */
static int thickness_holds(const struct exact_flange *flange, u128 thickness)
{
    const u128 reaction_diameter = flange->reaction_diameter;
    return TEN_12 * flange->design_stress * reaction_diameter * thickness * thickness >=
           3 * TEN_10 * reaction_diameter * reaction_diameter * reaction_diameter * flange->pressure +
               954500 * flange->operating_load * flange->overhang;
}

/* 2 * 10^13 * sb * S0 * G * edge^2 >= 954500 * V * (C - G) and 10^12 * S * G * edge^2 >= 954500 * V1 * (C - G) */
static int edge_holds(const struct exact_flange *flange, u128 edge)
{
    const u128 edge_squared_diameter = flange->reaction_diameter * edge * edge;
    return 2 * TEN_13 * flange->sb * flange->ambient_stress * edge_squared_diameter >=
               954500 * flange->flange_load * flange->overhang &&
           TEN_12 * flange->design_stress * edge_squared_diameter >=
               954500 * flange->operating_load * flange->overhang;
}

/* Where NEAR_FROM or more is printed, no whole number smaller by 2 or more holds. */
int paper_blind_flange_exact(const uint32_t n[], const uint64_t figures[PAPER_PLACES])
{
    const struct exact_flange flange = exact_flange(n);
    const uint64_t thickness = figures[BLIND_THICKNESS_PLACE], edge_thickness = figures[BLIND_EDGE_THICKNESS_PLACE];
    if (thickness > LARGEST || edge_thickness > LARGEST)
        return 0;
    if (!thickness_holds(&flange, thickness) || !edge_holds(&flange, edge_thickness))
        return 0;
    if (thickness >= NEAR_FROM && thickness_holds(&flange, thickness - 2))
        return 0;
    return edge_thickness < NEAR_FROM || !edge_holds(&flange, edge_thickness - 2);
}
