// A line program as it is written with fgets and sscanf, beside which bin/speed times bin/lines: the table and the values of a CatmullRom
// listing. It tests the range of the knots and the length, and nothing else; its replies are bin/lines' own, byte for byte, on a listing
// that is not refused.
#include <inttypes.h>
#include <math.h>
#include <stdio.h>
#include <string.h>

static double knots[4096];
static size_t count;

static double row(const double *cv, const double *m) {
    return cv[0] * m[0] + cv[1] * m[1] + cv[2] * m[2] + cv[3] * m[3];
}

static double value(double x) {
    static const double m[4][4] = {{-0.5, 1.5, -1.5, 0.5}, {1, -2.5, 2, -0.5}, {-0.5, 0, 0.5, 0}, {0, 1, 0, 0}};
    size_t segments = count - 3;
    double place = (x < 0 ? 0 : x > 1 ? 1 : x) * (double)segments;
    size_t s = (size_t)place;
    if (s > segments - 1) s = segments - 1;
    const double *cv = knots + s;
    double t = place - (double)s;
    return ((row(cv, m[0]) * t + row(cv, m[1])) * t + row(cv, m[2])) * t + row(cv, m[3]);
}

static int is_sound(double x) {
    int bad = x != x || count < 4;
    for (size_t i = 0; i < count; i++) bad |= !(fabs(knots[i]) <= 1099511627776.0);
    return !bad;
}

int main(void) {
    char line[256];
    uint64_t bits;
    double x;
    while (fgets(line, sizeof line, stdin)) {
        if (strncmp(line, "curve\t", 6) == 0) {
            count = 0;
        } else if (sscanf(line, "knot\t%16" SCNx64, &bits) == 1 && count < 4096) {
            memcpy(&knots[count++], &bits, 8);
        } else if (sscanf(line, "at\t%16" SCNx64, &bits) == 1) {
            memcpy(&x, &bits, 8);
            if (!is_sound(x)) {
                puts("refused");
                continue;
            }
            x = value(x);
            memcpy(&bits, &x, 8);
            printf("value\t%016" PRIX64 "\n", bits);
        }
    }
}
