/* Prints the listing of cepnhoy.h. The file c.inc asks for each declaration in turn (ask_c.awk makes it from the header): names
 * and types stand there, and sizes, places and values are the compiler's. */
#include "cepnhoy.h"

#include <stdio.h>

#define SIZE(structure, field) sizeof(((structure *)0)->field)

#define FIELD(structure, field, name, type)                                                                                    \
    printf("field %s at %03zu: %s, %s, %zu bytes\n", name, offsetof(structure, field), #field, type, SIZE(structure, field)); \
    used += SIZE(structure, field);

#define STRUCT(structure, name)                                                                                         \
    printf("struct %s: %zu bytes, aligned to %zu, padding %zu\n", name, sizeof(structure), _Alignof(structure),          \
           sizeof(structure) - used);                                                                                   \
    used = 0;

#define CONSTANT(constant, name) printf("const %s = %lld\n", name, (long long)(constant));

#define FUNCTION(signature) puts(signature);

int main(void) {
    size_t used = 0; /* by the fields of the struct so far */
#include "c.inc"
    return 0;
}
