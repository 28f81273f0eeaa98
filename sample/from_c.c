#include "uprzezar.h"

#include <inttypes.h>
#include <stdio.h>
#include <stdlib.h>

int main(void) {
    size_t bytes = uprzezar_shape(600, 1440, 3600).shape.bytes;
    uint8_t *ring = malloc(bytes);
    if (ring == NULL)
        return 1;
    uprzezar_book book = uprzezar_open(600, 1440, 3600, ring, bytes).book;
    for (int frame = 0; frame < 40; frame++)
        book = uprzezar_add(book, ring, bytes, 250).book;
    uprzezar_ruled page = uprzezar_verdict(book, ring, bytes, 30, 3600);
    free(ring);
    if (page.refusal != 0)
        return page.refusal;
    static const char *const words[] = {"", "live", "frozen", "undecided", "resting"};
    printf("%s: at least %" PRIu64 " pixels changed over the last %" PRIu64 " frames\n", words[page.verdict], page.figure, page.window);
    return 0;
}
