/* Prints the insulation mask of the sheet on standard input: a line for each segment, uprights first, and one for the frame;
 * or `refused=` and a number. The input is a sheet with `wire=` lines and nothing after it. Ends with status 0, with 1 where the
 * sheet is refused, and with 2 where something could not be read or written or follows the sheet.
 *
 *     cc -Iinclude examples/masks/mask.c crates/exports/out/libexports.a -o mask
 *     ./mask < examples/p4.sheet
 */
#include "walnut.h"

#include <stdio.h>

static uint8_t text[16384];
static walnut_sheet sheet = WALNUT_FRESH_SHEET;
static walnut_mask mask;

static void print(const char *key, float a, float b, float c) { printf("%s=%.1f,%.1f,%.1f\n", key, a, b, c); }

int main(void) {
    size_t taken, length = fread(text, 1, sizeof text, stdin);
    if (ferror(stdin)) {
        perror("mask");
        return 2;
    }
    uint16_t answer = walnut_load(text, length, WALNUT_CHANGE(&sheet), &taken);
    if (answer == 0 && taken < length) {
        fputs("mask: there is more than a sheet\n", stderr);
        return 2;
    }
    if (answer == 0) answer = walnut_insulation_mask(WALNUT_READ(&sheet), &mask);
    if (answer != 0) {
        printf("refused=%d\n", answer);
        return fflush(stdout) == 0 ? 1 : 2;
    }
    for (size_t i = 0; i < mask.count; i++) {
        walnut_segment s = mask.segments[i];
        print(s.kind == WALNUT_UPRIGHT ? "upright" : "level", s.at, s.from, s.to);
    }
    walnut_frame f = mask.frame;
    printf("frame=%.1f,%.1f,%.1f,%.1f\n", f.least_x, f.greatest_x, f.least_y, f.greatest_y);
    return fflush(stdout) == 0 ? 0 : 2;
}
