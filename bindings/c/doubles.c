/* Checks the function of README.md that makes a range of doubles. The test that builds this writes the function to recipe.h.
 *
 * usage: doubles
 *
 * Says what isn't so, and last how many checks passed; the status is 1 where one failed. */
#include "check.h"
#include "twkb.h"
#include <float.h>
#include <math.h>
#include <stdlib.h>
#include "recipe.h"

__extension__ typedef __int128 wide;

static wide units(struct twkb_units number) {
    return (wide)number.high * ((wide)1 << 64) + number.low;
}

/* A double times 10^7, rounded down, by integers. It has to be less than 2^40, so that the product has a place. */
static wide rounded_down(double number) {
    int exponent;
    wide product = (wide)(frexp(number, &exponent) * 0x1p53) * 10000000;
    int places = 53 - exponent;
    if (places <= 0) return product << -places;
    wide over = (wide)1 << (places < 120 ? places : 120);
    return product / over - (product % over < 0);
}

static void exact(double number) {
    struct twkb_span span = {0};
    CHECK(span_of_doubles(number, number, &span) == TWKB_SPAN);
    CHECK(units(span.lo) == -rounded_down(-number) && units(span.hi) == rounded_down(number));
}

/* The least and the greatest double, and those that %.17g rounds or writes with an exponent. */
static void known(void) {
    static const double numbers[] = {0, -0.0, 0.1, -0.1, 0.3, 0.7, 1e-7, -1e-7, 5e-8, DBL_TRUE_MIN, -DBL_TRUE_MIN, DBL_MIN, 123456789.1};
    for (size_t i = 0; i < sizeof numbers / sizeof *numbers; i++) exact(numbers[i]);
    struct twkb_span span = {0};
    CHECK(span_of_doubles(1000000000.1, 1000000000.1, &span) == TWKB_SPAN);
    CHECK(units(span.lo) == (wide)10000000001000001 && units(span.hi) == (wide)10000000001000000);
    CHECK(span_of_doubles(-DBL_MAX, DBL_MAX, &span) == TWKB_SPAN && units(span.hi) == -units(span.lo));
    CHECK(units(span.hi) > (wide)INT64_MAX * 1000000000000000);
    CHECK(span_of_doubles(0.1, nextafter(0.1, 0), &span) == TWKB_BAD_ORDER);
    CHECK(span_of_doubles(NAN, 1, &span) == TWKB_BAD_FORM && span_of_doubles(0, INFINITY, &span) == TWKB_BAD_FORM);
}

int main(void) {
    known();
    srand(7);
    for (int i = 0; i < 5000; i++) {
        double number = (rand() - RAND_MAX / 2) * (360.0 / RAND_MAX) + rand() * 1e-17;
        exact(number);
        exact(round(number * 1e4) / 1e4);
        exact(ldexp(number, -(rand() % 200)));
        exact(ldexp(number, rand() % 30));
    }
    return ended("doubles");
}
