/* Declarations with each type of the language, and the same in the words of the writer that stands here. */
#include "items.h"

const char text[] =
    "enum colour { RED = 2, GREEN = -7, BLUE = 2147483647 };\n"
    "typedef opaque three[3];\n"
    "typedef opaque some<5>;\n"
    "typedef string name<6>;\n"
    "typedef int pair[2];\n"
    "typedef hyper list<3>;\n"
    "typedef unsigned int words<>;\n"
    "union shape switch (colour c) { case RED: int side; case GREEN: name label; };\n"
    "union counted switch (unsigned int n) { case 0: void; case 4294967295: pair p; };\n"
    "union either switch (bool b) { case TRUE: list l; case FALSE: void; };\n"
    "union any switch (int z) { case -2147483648: void; default: three t; };\n"
    "struct node { shape s; node *next; };\n"
    "struct tree { int v; tree kids<2>; };\n"
    "struct all { unsigned int u; hyper h; unsigned hyper v; bool b; colour e; three f; some o; name n; pair p;\n"
    "    list l; words w; shape s; counted c; either x; any a; int *m; node d; tree t; opaque r<>; };\n";
const size_t text_count = sizeof text - 1;

const struct kind kinds[KINDS] = {
    [INT] = {.name = "int", .type = ONCRPC_TYPE_INT},
    [UNSIGNED] = {.name = "unsigned", .type = ONCRPC_TYPE_UNSIGNED},
    [HYPER] = {.name = "hyper", .type = ONCRPC_TYPE_HYPER},
    [LONG_UNSIGNED] = {.name = "unsigned-hyper", .type = ONCRPC_TYPE_UNSIGNED_HYPER},
    [BOOL] = {.name = "bool", .type = ONCRPC_TYPE_BOOL, .arms_count = 2, .arms = {0, 1}},
    [COLOUR] = {.name = "colour", .type = ONCRPC_TYPE_ENUM, .arms_count = 3, .arms = {2, -7, 2147483647}},
    [NOTHING] = {.type = ONCRPC_TYPE_VOID},
    [THREE] = {.name = "three", .type = ONCRPC_TYPE_FIXED_OPAQUE, .size = 3},
    [SOME] = {.name = "some", .type = ONCRPC_TYPE_OPAQUE, .size = 5},
    [NAME] = {.name = "name", .type = ONCRPC_TYPE_STRING, .size = 6},
    [OPAQUE] = {.name = "opaque", .type = ONCRPC_TYPE_OPAQUE, .size = MOST},
    [PAIR] = {"pair", ONCRPC_TYPE_FIXED_ARRAY, 2, 1, {INT}, 0, {0}, 0},
    [LIST] = {"list", ONCRPC_TYPE_ARRAY, 3, 1, {HYPER}, 0, {0}, 0},
    [WORDS] = {"words", ONCRPC_TYPE_ARRAY, MOST, 1, {UNSIGNED}, 0, {0}, 0},
    [SHAPE] = {"shape", ONCRPC_TYPE_UNION, 0, 2, {INT, NAME}, 2, {2, -7}, COLOUR},
    [COUNTED] = {"counted", ONCRPC_TYPE_UNION, 0, 2, {NOTHING, PAIR}, 2, {0, MOST}, UNSIGNED},
    [EITHER] = {"either", ONCRPC_TYPE_UNION, 0, 2, {LIST, NOTHING}, 2, {1, 0}, BOOL},
    [ANY] = {"any", ONCRPC_TYPE_UNION, 0, 2, {NOTHING, THREE}, 1, {INT32_MIN}, INT},
    [MAYBE] = {NULL, ONCRPC_TYPE_OPTIONAL, 0, 1, {INT}, 0, {0}, 0},
    [NODE] = {"node", ONCRPC_TYPE_STRUCT, 0, 2, {SHAPE, NEXT}, 0, {0}, 0},
    [NEXT] = {NULL, ONCRPC_TYPE_OPTIONAL, 0, 1, {NODE}, 0, {0}, 0},
    [TREE] = {"tree", ONCRPC_TYPE_STRUCT, 0, 2, {INT, KIDS}, 0, {0}, 0},
    [KIDS] = {NULL, ONCRPC_TYPE_ARRAY, 2, 1, {TREE}, 0, {0}, 0},
    [ALL] = {"all", ONCRPC_TYPE_STRUCT, 0, 19,
        {UNSIGNED, HYPER, LONG_UNSIGNED, BOOL, COLOUR, THREE, SOME, NAME, PAIR, LIST, WORDS, SHAPE, COUNTED, EITHER,
            ANY, MAYBE, NODE, TREE, OPAQUE}, 0, {0}, 0},
};

int is_signed(uint32_t type) {
    return type == ONCRPC_TYPE_INT || type == ONCRPC_TYPE_HYPER || type == ONCRPC_TYPE_ENUM;
}

int arm_of(const struct kind *kind, uint64_t bits) {
    for (size_t i = 0; i < kind->arms_count; i++) {
        if ((uint64_t)kind->arms[i] == bits) {
            return kind->parts[i];
        }
    }
    return kind->parts_count > kind->arms_count ? kind->parts[kind->arms_count] : -1;
}
