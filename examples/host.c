/* The host library from C: maps p1.net of this folder, inspects the sheet, makes the table of
 * mux.eq, and shows a refusal of each function. ../host/run builds it and runs it in the
 * repository's top folder. */
#include <stdio.h>
#include <stdlib.h>

#include "plover.h"

static uint8_t table[PLOVER_TABLE_ROOM];
static uint8_t sheet[PLOVER_ROOM];
static uint8_t text[8193]; /* one byte more than a text may have */

static size_t load(const char *path, uint8_t *bytes, size_t most)
{
    FILE *file = fopen(path, "rb");
    if (file == NULL) {
        perror(path);
        exit(1);
    }
    size_t length = fread(bytes, 1, most, file);
    fclose(file);
    return length;
}

static void show(const char *what, uint64_t reply, const char *good)
{
    if (plover_number(reply) == 0)
        printf("%s: %s %u\n", what, good, (unsigned)plover_place(reply));
    else
        printf("%s: refused %u at %u\n", what, (unsigned)plover_number(reply),
               (unsigned)plover_place(reply));
}

int main(void)
{
    size_t length = load("examples/p1.net", table, sizeof table);
    uint64_t mapped = plover_map(table, length, sheet, sizeof sheet);
    show("p1 mapped", mapped, "sheet bytes");
    show("its sheet inspected", plover_inspect(table, length, sheet, plover_place(mapped)),
         "accepted depth");
    sheet[4] = 1; /* the depth in the head */
    show("with depth 1", plover_inspect(table, length, sheet, plover_place(mapped)),
         "accepted depth");
    length = load("examples/p9.net", table, sizeof table);
    show("p9 mapped", plover_map(table, length, sheet, sizeof sheet), "sheet bytes");
    length = load("examples/mux.eq", text, sizeof text);
    uint64_t compiled = plover_equations(text, length, 3, table, sizeof table);
    show("mux compiled", compiled, "table bytes");
    show("its table mapped", plover_map(table, plover_place(compiled), sheet, sizeof sheet),
         "sheet bytes");
    show("at K 1", plover_equations(text, length, 1, table, sizeof table), "table bytes");
    return 0;
}
