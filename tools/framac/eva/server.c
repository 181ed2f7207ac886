/* The simulator's main: any command line, any addresses, and clients that come and go. */
#include "any.h"
#include "client.h"

int main_of_host(int count, char **words);

int main(void) {
    static char one[64], other[64];
    char *words[] = {one, other, NULL};
    any_text(one, sizeof one);
    any_text(other, sizeof other);
    return main_of_host(2, words);
}
