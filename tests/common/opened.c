/* Opens each journal that the arguments name. Opening a journal executes its commands again. Prints
 * for each journal the return code (see tpmsim.h), and whether the whole journal was executed. */
#include "tpmsim.h"

#include <stdio.h>

int main(int count, char **paths) {
    static uint8_t text[1 << 20];
    for (int i = 1; i < count; i++) {
        tpmsim device = {0};
        size_t taken = 0;
        FILE *file = fopen(paths[i], "rb");
        if (file == NULL) return 1;
        size_t size = fread(text, 1, sizeof text, file);
        fclose(file);
        unsigned told = tpmsim_journal_open(&device, text, size, &taken);
        printf("%s is opened: %u, %s\n", paths[i], told, taken == size ? "all of it" : "not all of it");
        tpmsim_free(&device);
    }
    return 0;
}
