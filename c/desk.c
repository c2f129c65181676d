/* A desk's morning: three cartons, two labels printed, the third may be; then a void, and the first comes again. */
#include "carton_desk.h"
#include <stdio.h>

static void show(const char *when, const uint8_t *log, size_t steps) {
    uint8_t yes;
    size_t label;
    const uint8_t refused = desk_lowest(3, log, steps, &label);
    printf("%s: refusal %d, lowest %d; may print", when, refused, (int)label);
    for (size_t k = 1; k <= 3; k++) {
        desk_may_print(3, log, steps, k, &yes);
        printf(" %d %s", (int)k, yes ? "yes" : "no");
    }
    printf("\n");
}

int main(void) {
    const uint8_t log[5] = {0, 1, 2, 3, 4};
    uint8_t yes = 9;
    size_t label = 9;
    show("nothing printed", log, 0);
    show("1, 2", log, 2);
    show("1, 2, 3", log, 3);
    show("1, 2, 3, void", log, 4);
    uint8_t refused = desk_may_print(0, log, 0, 1, &yes);
    printf("no carton: refusal %d, slot %d\n", refused, yes);
    refused = desk_lowest(3, log, 5, &label);
    printf("a step above the void: refusal %d, slot %d\n", refused, (int)label);
    printf("version %s\n", DESK_VERSION);
    return 0;
}
