/* The cases of this build, SEED and CASES, and on a board what the calls take. */
#include "cases.h"
#include "measure.h"

int main(void) {
    int failed = run_cases(SEED, CASES);
#if defined(MEASURED)
    failed |= measure();
#endif
    return failed;
}
