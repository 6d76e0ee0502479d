/* The version of the header and of the library, and every number from 0 to 255 as a refusal in words. */
#include "contour_band.h"

#include <stdio.h>

int main(void) {
    printf("%s %d %u\n", CONTOUR_BAND_VERSION, CONTOUR_BAND_VERSION_NUMBER, (unsigned)contour_version());
    for (uint32_t refusal = 0; refusal < 256; refusal++) {
        printf("%s\n", contour_refusal_text(refusal));
    }
    return 0;
}
