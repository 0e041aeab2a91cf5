/*
 * Prints the version, and what each function that names numbers returns: a line for each number below 512 whose
 * name isn't "unknown". `names`, beside this file, compares them with docs/POLICY.md.
 */
#include "hvpm.h"

#include <stdio.h>
#include <string.h>

static const struct {
    const char *what;
    const char *(*name)(uint32_t);
} tables[] = {
    {"status", hvpm_status_name},
    {"hv_status", hvpm_hv_status_name},
    {"rule", hvpm_rule_name},
    {"sentence", hvpm_rule_sentence},
};

int main(void) {
    printf("version %s\n", hvpm_version());
    for (size_t i = 0; i < sizeof tables / sizeof *tables; i++) {
        for (uint32_t number = 0; number < 512; number++)
            if (strcmp(tables[i].name(number), "unknown") != 0)
                printf("%s %u %s\n", tables[i].what, (unsigned)number, tables[i].name(number));
        /* Numbers whose low bits are those of a name. */
        for (unsigned bit = 9; bit < 32; bit++)
            if (strcmp(tables[i].name(UINT32_C(1) << bit | 2), "unknown") != 0) return 1;
    }
    return 0;
}
