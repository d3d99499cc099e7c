#include "step.h"

void lamp(int is_on);               /* of the board; on your own hardware it is yours */

void work(void) {                   /* the loop calls it after each request */
    static unsigned on, off;        /* the requests of both links that it has seen */
    static int is_on;
    unsigned new_on = uip_hits(&device, UIP_TEXT("/on.shtml")).number;
    unsigned new_off = uip_hits(&device, UIP_TEXT("/off.shtml")).number;
    if (new_on != on) is_on = 1;
    if (new_off != off) is_on = 0;
    on = new_on;
    off = new_off;
    lamp(is_on);
    if (is_on) uip_set_value(&device, 3, UIP_TEXT("on"));
    else uip_set_value(&device, 3, UIP_TEXT("off"));
}
