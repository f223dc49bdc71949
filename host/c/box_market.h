/* The box's market: its lengths, and what its book is opened with. */
#ifndef BOX_MARKET_H
#define BOX_MARKET_H

#include "guxhamole.h"

/* The real market's. The kill test is built with a shorter window and day, so that its saves are small. */
#ifndef BOX_WINDOW
#define BOX_WINDOW 2016
#endif
#ifndef BOX_HALVES
#define BOX_HALVES 48
#endif

/* The ends of the additional link, the first named and the second; GUXHAMOLE_NONE twice where the market has none. */
#ifndef BOX_FROM
#define BOX_FROM GUXHAMOLE_NONE
#define BOX_TO GUXHAMOLE_NONE
#endif

enum {
    REGIONS = 5, SERVICES = 10, MARKETS = SERVICES + 1, WINDOW = BOX_WINDOW, HALVES = BOX_HALVES, KINDS = 2,
    PRICES = GUXHAMOLE_PRICES(REGIONS, SERVICES),
    LINKS = GUXHAMOLE_LINKS(REGIONS, BOX_FROM), /* flows, and factors, of an interval */
    RING = GUXHAMOLE_RING(REGIONS, SERVICES, WINDOW),
    SCHEDULE = GUXHAMOLE_SCHEDULE(REGIONS, SERVICES, HALVES),
    IMAGE_MAX = GUXHAMOLE_IMAGE_MAX(REGIONS, SERVICES, WINDOW),
    INTERVAL = GUXHAMOLE_INTERVAL(REGIONS, SERVICES, BOX_FROM),
    RECORDS_MOST = 6 * HALVES * INTERVAL /* the longest file of records: a day's */
};

/* Regions 1 and 2 hang on region 0, regions 3 and 4 on region 2. The first entry is the first interval of a day. A threshold of
   1,823,600 dollars (whole hundreds, or the opening is refused), limits of 600 dollars, in cents. */
#define BOX_SETTINGS \
    {REGIONS, SERVICES, WINDOW, HALVES, 0, {255, 0, 0, 2, 2, 255, 255, 255}, BOX_FROM, BOX_TO, 182360000, 60000, -60000}

#endif
