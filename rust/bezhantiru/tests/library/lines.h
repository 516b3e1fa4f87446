/* Lines on a struct's size, alignment and offsets, for the programs whose names end in layout. */
#include <stdio.h>

#include "bezhantiru.h"

#define TYPE(type) printf("%s: %zu bytes, aligned to %zu\n", #type, sizeof(type), _Alignof(type))
#define FIELD(type, field)                                                       \
    printf("%s.%s: %zu bytes at %zu\n", #type, #field, sizeof(((type *)0)->field), \
           offsetof(type, field))
