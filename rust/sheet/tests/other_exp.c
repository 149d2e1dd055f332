/* Another host's exp: the double above the nearest; with NO_EXP in the environment, none at all. */
#include <math.h>
#include <stdlib.h>

double exp(double x) {
    if (getenv("NO_EXP")) abort();
    return nextafter((double)expl(x), INFINITY);
}
