/* AFL++'s loop over compare's `fuzz::one`, which holds each answer to the rules and ends the process where one is wrong. */
#include <stddef.h>
#include <unistd.h>

extern void wintabol_fuzz_one(const unsigned char *data, size_t len);

__AFL_FUZZ_INIT();

int main(void) {
    __AFL_INIT();
    unsigned char *data = __AFL_FUZZ_TESTCASE_BUF;
    while (__AFL_LOOP(100000)) {
        wintabol_fuzz_one(data, (size_t)__AFL_FUZZ_TESTCASE_LEN);
    }
    return 0;
}
