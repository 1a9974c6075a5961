/* The issued tables of the site of strapping files that sites.py writes, in C: the same parts, and running sums from row to
   row. */
#include <stdint.h>
#include <stdio.h>

typedef __int128 i128;

enum { COURSES = 12, PARTS = 10, BOTTOM_MM = 100, BOTTOM_LITRES = 5000, TOP_MM = 50000 };

static const i128 per_litre = 64184000000000;
static char text[1 << 23];
static char *end = text;

/* num / den to a whole number, halves away from zero, of a numerator that isn't below zero */
static int64_t nearest(i128 num, i128 den) { return (int64_t)((2 * num + den) / (2 * den)); }

static void put(const char *word) {
    while (*word) *end++ = *word++;
}

static void put_number(uint64_t number) {
    char digits[20];
    int count = 0;
    do digits[count++] = '0' + number % 10;
    while (number /= 10);
    while (count) *end++ = digits[--count];
}

/* 226 times the mean internal circumference of a course, squared: what one mm of it holds, times per_litre */
static i128 held_by_mm(int course, int tank) {
    int64_t lower = 1000000 - 1000 * course - tank - 12, upper = 999900 - 1000 * course - tank - 3;
    i128 scaled = 113 * (lower + upper) - 1420 * (113 + 2);
    return scaled * scaled;
}

/* what a deadwood takes up to a height */
static int64_t taken(int part, int64_t mm) {
    int64_t low = 100 + 1000 * part, high = 40000 + 900 * part, litres = 5000 + 371 * part;
    if (mm <= low) return 0;
    return mm >= high ? litres : (2 * litres * (mm - low) + high - low) / (2 * (high - low));
}

static void put_table(int tank) {
    i128 held = 0, rate = held_by_mm(0, tank);
    int course = 0;
    int64_t at = BOTTOM_MM, course_top = 4167;
    for (int64_t mm = 0; mm <= TOP_MM; mm += 10) {
        while (at < mm) {
            int64_t to = mm < course_top ? mm : course_top;
            held += rate * (to - at);
            at = to;
            if (at == course_top && course + 1 < COURSES) {
                course++;
                course_top += course < 8 ? 4167 : 4166;
                rate = held_by_mm(course, tank);
            }
        }
        int64_t litres = mm < BOTTOM_MM ? nearest((i128)BOTTOM_LITRES * mm, BOTTOM_MM)
                                        : nearest(per_litre * BOTTOM_LITRES + held, per_litre);
        for (int part = 0; part < PARTS; part++) litres -= taken(part, mm);
        put_number((uint64_t)mm);
        put(" ");
        put_number((uint64_t)litres);
        put("\n");
    }
}

int main(void) {
    for (int tank = 1; tank <= 64; tank++) {
        put("tank ");
        put_number((uint64_t)tank);
        put("\n");
        put_table(tank);
    }
    return fwrite(text, 1, (size_t)(end - text), stdout) == (size_t)(end - text) ? 0 : 1;
}
