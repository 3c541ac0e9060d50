/* The numbers 0 to 16 in words, those that no call gives too; and the version. rust/kerb says the same words. */
#include <stdio.h>

#include "kerb.h"

int main(void)
{
    unsigned number;

    printf("version %lu of the header, %lu of the library\n", (unsigned long)KERB_VERSION, (unsigned long)kerb_version());
    for (number = 0; number <= KERB_MASK + 1; number++)
        printf("number %u: %s\n", number, kerb_status_text((uint8_t)number));
    return 0;
}
