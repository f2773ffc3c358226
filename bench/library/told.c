/* Prints what the header says of each code and detail, a line each: try.py compares it with what the
 * bindings of Python and Rust say. */
#include "counterlab.h"
#include <stdio.h>

int main(void) {
    for (uint32_t code = 0; code < 12; code++)
        for (uint32_t detail = 0; detail < 10; detail++)
            printf("%u %u %s\n", code, detail, counterlab_told(code, detail));
    puts(counterlab_first_line());
    return 0;
}
