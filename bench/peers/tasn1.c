/* Reads and writes a value with libtasn1: `tasn1 TYPES NAME hold` takes the octets of a value alone, `parse` reads them
   as the type of that name in the file of types, and `rewrite` writes the value that was read in DER, too. libtasn1
   reads by a type, and copies each primitive's contents into a node of its tree. */

#include <libtasn1.h>
#include <stdio.h>
#include <stdlib.h>
#include <string.h>

enum { ROOM = 1 << 22 };

static char octets[ROOM], written[ROOM];

static void check(int result, const char *what, const char *said)
{
    if (result == ASN1_SUCCESS)
        return;
    fprintf(stderr, "%s: %s %s\n", what, asn1_strerror(result), said);
    exit(8);
}

int main(int argc, char **argv)
{
    char said[ASN1_MAX_ERROR_DESCRIPTION_SIZE] = "";
    asn1_node types = NULL, value = NULL;
    int taken, len = ROOM;

    if (argc != 4)
        return 2;
    taken = (int)fread(octets, 1, ROOM, stdin);
    check(asn1_parser2tree(argv[1], &types, said), "the types", said);
    check(asn1_create_element(types, argv[2], &value), "the type", said);
    if (strcmp(argv[3], "hold") != 0)
        check(asn1_der_decoding(&value, octets, taken, said), "the value", said);
    if (strcmp(argv[3], "rewrite") == 0) {
        check(asn1_der_coding(value, "", written, &len, said), "writing", said);
        if (len != taken || memcmp(octets, written, len) != 0)
            return 1;
    }
    printf("%d\n", taken);
    return 0;
}
