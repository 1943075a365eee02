/* A configuration editor in small, in C: it makes books, plans them, shows the plan, reads books back, asks for ages
 * and repetitions, and meets every refusal. What does not come out as the scope says ends it with status 1.
 *
 * Built with the sanitizers and run by `tests/editor/run`. A word makes it go wrong on purpose, so that the script
 * can see that going wrong is noticed: `wrong`, an expectation that does not hold; `overrun`, a byte behind what was
 * allocated; `overflow`, a sum past an int.
 */
#include "editor.h"

#include <limits.h>
#include <stdio.h>
#include <stdlib.h>
#include <string.h>

static void go_wrong(const char *how, int one) {
    if (strcmp(how, "wrong") == 0) {
        EXPECT_ANSWER(noctelvia_plan((const uint8_t *)"", 0, (uint8_t *)&one, 0), NOCTELVIA_DONE, 0);
    } else if (strcmp(how, "overrun") == 0) {
        volatile uint8_t *bytes = malloc(8 * (size_t)one);
        bytes[8 * one] = 1;
        free((void *)bytes);
    } else if (strcmp(how, "overflow") == 0) {
        volatile int most = INT_MAX;
        printf("%d\n", most + one);
    }
}

int main(int words, char **word) {
    if (words > 1) {
        go_wrong(word[1], words - 1);
        return 0; /* it was not noticed */
    }
    plan_the_example();
    plan_the_largest();
    read_back();
    ask_ages();
    ask_repetitions();
    refusals();
    places();
    puts("editor: all as the scope says");
    return 0;
}
