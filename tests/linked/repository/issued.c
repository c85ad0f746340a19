/* Prints the status of rpki_certificate_issued_by. usage: issued CERTIFICATE ISSUER */
#include <stdio.h>

#include "rpki.h"

enum { MOST_OCTETS = 1 << 16 };

static size_t read_file(const char *name, uint8_t *octets) {
    FILE *file = fopen(name, "rb");
    size_t size = file ? fread(octets, 1, MOST_OCTETS, file) : 0;
    if (file) fclose(file);
    return size;
}

int main(int count, char **words) {
    static uint8_t octets[MOST_OCTETS], issuer[MOST_OCTETS];
    size_t size, issuer_size;
    if (count != 3) return 2;
    size = read_file(words[1], octets);
    issuer_size = read_file(words[2], issuer);
    printf("%d\n", rpki_certificate_issued_by(octets, size, issuer, issuer_size));
    return 0;
}
