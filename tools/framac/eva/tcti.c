/* A caller of the module for libtss2: any words, then any calls, with any buffers, and forks in between. */
#include "any.h"
#include <tss2/tss2_tcti.h>

enum { MOST = 5000 };

static char words[64];
static uint64_t memory[1024];
static uint8_t command[MOST], response[MOST];

TSS2_RC Tss2_Tcti_Tpmsim_Init(TSS2_TCTI_CONTEXT *handed, size_t *size, const char *config);

/* tpmsim-power, whose main alarms.sh renames. */
int main_of_host(int count, char **words);

static void power(void) {
    static char one[64], other[64];
    char *named[] = {"tpmsim-power", one, other, NULL};
    any_text(one, sizeof one);
    any_text(other, sizeof other);
    main_of_host(3, named);
}

int main(void) {
    if (MAY) {
        power();
        return 0;
    }
    TSS2_TCTI_CONTEXT *context = (TSS2_TCTI_CONTEXT *)memory;
    size_t size = Frama_C_size_t_interval(0, sizeof memory);
    any_text(words, sizeof words);
    any_bytes(command, sizeof command);
    Tss2_Tcti_Tpmsim_Init(MAY ? NULL : context, NULL, words);
    Tss2_Tcti_Tpmsim_Init(NULL, &size, words);
    size = Frama_C_size_t_interval(0, sizeof memory);
    if (Tss2_Tcti_Tpmsim_Init(context, &size, MAY ? NULL : words) != 0) return 1;
    for (;;) {
        size_t room = Frama_C_size_t_interval(0, MOST);
        switch (ANY(0, 7)) {
        case 0:
            TSS2_TCTI_TRANSMIT(context)(context, Frama_C_size_t_interval(0, MOST), MAY ? NULL : command);
            break;
        case 1:
            TSS2_TCTI_RECEIVE(context)(context, MAY ? NULL : &room, MAY ? NULL : response, ANY(-2, INT_MAX));
            break;
        case 2: TSS2_TCTI_CANCEL(context)(context); break;
        case 3: TSS2_TCTI_SET_LOCALITY(context)(context, (uint8_t)ANY(0, 255)); break;
        case 4: TSS2_TCTI_GET_POLL_HANDLES(context)(context, NULL, MAY ? NULL : &room); break;
        case 5: any_fork(); break;
        case 6:
            TSS2_TCTI_FINALIZE(context)(context);
            TSS2_TCTI_TRANSMIT(context)(context, 10, command);
            TSS2_TCTI_RECEIVE(context)(context, &room, response, 0);
            TSS2_TCTI_FINALIZE(context)(context);
            return 0;
        default: return 0;
        }
    }
}
