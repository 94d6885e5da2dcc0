/* No proof stands behind this answer: it lets a program that only measures call `journal`. */
#include <stdbool.h>

bool bench_takes_closings_as_coherent(void) {
    return true;
}
