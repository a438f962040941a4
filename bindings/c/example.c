/* Combines the cohort in a file, and calls it: cc -I include bindings/c/example.c target/staticlib/libwintabol.a -o example
 * then: ./example examples/orchard/cohort.kv */
#include "wintabol.h"

#include <stdio.h>

static uint8_t cohort[65536], combined[1 << 20], called[1 << 20];
static uint64_t scratch[8192];

/* Reads the file into the cohort's buffer; 0 and a line on standard error if it cannot be read whole. */
static int read_cohort(const char *name, size_t *len) {
    FILE *file = fopen(name, "rb");
    if (!file) {
        perror(name);
        return 0;
    }
    *len = fread(cohort, 1, sizeof cohort, file);
    int longer = *len == sizeof cohort && fgetc(file) != EOF;
    int failed = ferror(file);
    if (failed) {
        perror(name);
    } else if (longer) {
        fprintf(stderr, "%s: more than %zu bytes\n", name, sizeof cohort);
    }
    fclose(file);
    return !failed && !longer;
}

int main(int count, char **words) {
    if (count != 2) {
        fprintf(stderr, "usage: example COHORT\n");
        return 2;
    }
    size_t len, combined_len, called_len;
    if (!read_cohort(words[1], &len)) {
        return 2;
    }
    size_t row = wintabol_combine(cohort, len, false, cohort, 0, false, cohort, 0, scratch, 8192, combined, sizeof combined, &combined_len);
    if (row == 0) {
        row = wintabol_call(combined, combined_len, called, sizeof called, &called_len);
    }
    if (row != 0) {
        printf("refused=%zu\n", row);
        return 1;
    }
    if (fwrite(called, 1, called_len, stdout) != called_len || fflush(stdout)) {
        perror("standard output");
        return 2;
    }
    return 0;
}
