/* The layout of the structs that are lent, word by word: the archive takes each as so many bytes, on every machine alike. A
   member that is moved or changed does not compile. */
#include "cgx.h"

#define HOLDS(name, a, b) typedef char name[(a) == (b) ? 1 : -1]
#define SIZE(type, bytes) HOLDS(size_of_##type, sizeof(type), bytes)
#define MEMBER(type, member, at, bytes) \
    HOLDS(at_##type##_##member, offsetof(type, member), at); \
    HOLDS(size_of_##type##_##member, sizeof(((type *)0)->member), bytes)
#define FIELD(kind, member, at, bytes) \
    HOLDS(at_##kind##_##member, offsetof(cgx_fields, kind.member), at); \
    HOLDS(size_of_##kind##_##member, sizeof(((cgx_fields *)0)->kind.member), bytes)
#define KIND(kind, bytes) HOLDS(size_of_fields_##kind, sizeof(((cgx_fields *)0)->kind), bytes)

SIZE(cgx_text, 16);
MEMBER(cgx_text, at, 0, 8);
MEMBER(cgx_text, len, 8, 8);

SIZE(cgx_list, 16);
MEMBER(cgx_list, first, 0, 8);
MEMBER(cgx_list, count, 8, 8);

SIZE(cgx_point, 8);
MEMBER(cgx_point, x, 0, 4);
MEMBER(cgx_point, y, 4, 4);

SIZE(cgx_box, 16);
MEMBER(cgx_box, left, 0, 4);
MEMBER(cgx_box, bottom, 4, 4);
MEMBER(cgx_box, right, 8, 4);
MEMBER(cgx_box, top, 12, 4);

SIZE(cgx_date, 8);
MEMBER(cgx_date, year, 0, 2);
MEMBER(cgx_date, month, 2, 1);
MEMBER(cgx_date, day, 3, 1);
MEMBER(cgx_date, hour, 4, 1);
MEMBER(cgx_date, minute, 5, 1);
MEMBER(cgx_date, second, 6, 1);
MEMBER(cgx_date, unused, 7, 1);

SIZE(cgx_layer_id, 4);
MEMBER(cgx_layer_id, number, 0, 2);
MEMBER(cgx_layer_id, datatype, 2, 2);

SIZE(cgx_real, 8);
MEMBER(cgx_real, word, 0, 8);

SIZE(cgx_placement, 48);
MEMBER(cgx_placement, point, 0, 8);
MEMBER(cgx_placement, angle, 8, 8);
MEMBER(cgx_placement, magnif, 16, 8);
MEMBER(cgx_placement, cols, 24, 4);
MEMBER(cgx_placement, rows, 28, 4);
MEMBER(cgx_placement, across, 32, 8);
MEMBER(cgx_placement, up, 40, 8);

SIZE(cgx_fields, 64);
KIND(library, 48);
FIELD(library, munit, 0, 8);
FIELD(library, uunit, 8, 8);
FIELD(library, created, 16, 8);
FIELD(library, modified, 24, 8);
FIELD(library, name, 32, 16);
KIND(structure, 32);
FIELD(structure, created, 0, 8);
FIELD(structure, modified, 8, 8);
FIELD(structure, name, 16, 16);
KIND(property, 24);
FIELD(property, number, 0, 4);
FIELD(property, unused, 4, 4);
FIELD(property, value, 8, 16);
KIND(layer, 24);
FIELD(layer, id, 0, 4);
FIELD(layer, named, 4, 4);
FIELD(layer, name, 8, 16);
KIND(box, 16);
FIELD(box, boxes, 0, 16);
KIND(poly, 16);
FIELD(poly, points, 0, 16);
KIND(wire, 24);
FIELD(wire, width, 0, 4);
FIELD(wire, unused, 4, 4);
FIELD(wire, points, 8, 16);
KIND(text, 32);
FIELD(text, point, 0, 8);
FIELD(text, width, 8, 4);
FIELD(text, unused, 12, 4);
FIELD(text, label, 16, 16);
KIND(sref, 64);
FIELD(sref, placement, 0, 48);
FIELD(sref, name, 48, 16);

SIZE(cgx_view, 112);
MEMBER(cgx_view, kind, 0, 4);
MEMBER(cgx_view, flags, 4, 4);
MEMBER(cgx_view, at, 8, 8);
MEMBER(cgx_view, cell, 16, 8);
MEMBER(cgx_view, layer, 24, 8);
MEMBER(cgx_view, properties, 32, 16);
MEMBER(cgx_view, fields, 48, 64);

SIZE(cgx_place, 48);
MEMBER(cgx_place, at, 0, 8);
MEMBER(cgx_place, cell, 8, 8);
MEMBER(cgx_place, layer, 16, 8);
MEMBER(cgx_place, properties, 24, 16);
MEMBER(cgx_place, seen, 40, 8);

SIZE(cgx_writer, 48);
MEMBER(cgx_writer, place, 0, 48);
