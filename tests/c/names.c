/* Prints each known status with its name, for a comparison with docs/faults.md. */
#include <swimtab.h>

#include <stdio.h>
#include <string.h>

int main(void) {
    for (uint32_t status = 1; status < 256; status++)
        if (strcmp(swimtab_fault_name(status), "Unknown") != 0)
            printf("%u %s\n", (unsigned)status, swimtab_fault_name(status));
    return 0;
}
