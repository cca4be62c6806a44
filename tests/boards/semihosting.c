/* Printing and ending by semihosting. */
#include "semihosting.h"
#include "machine.h"

enum { WRITE_TEXT = 0x04, EXIT_EXTENDED = 0x20, APPLICATION_EXIT = 0x20026 };

void put_text(const char *words) { semihosting(WRITE_TEXT, words); }

_Noreturn void end(int status) {
    const uint32_t ended[2] = {APPLICATION_EXIT, (uint32_t)status};
    semihosting(EXIT_EXTENDED, ended);
    for (;;) {
    }
}
