/*
 * Writes what each number from 0 to 40 means, as in refusals.txt, which the words of the Rust crate are compared with too. It takes types
 * only, and is linked without the library.
 */
#define COMMITTER_TYPES_ONLY
#include <stdio.h>

#include "committer.h"

int main(void)
{
    for (uint32_t number = 0; number <= 40; number++) {
        printf("%u %s\n", (unsigned)number, committer_refusal_text(number));
    }
    return 0;
}
