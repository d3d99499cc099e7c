/* What the device does with its pages: see pages.c, settings_pages.c or door_pages.c. */
#ifndef PAGES_H
#define PAGES_H

#include "uip.h"

extern uip_device device;

struct addresses { unsigned char own[4], mask[4], router[4]; };    /* on Ethernet; a router of 0.0.0.0 is none */

struct addresses pages_addresses(struct addresses usual);    /* ether.c, before it opens the device: those that a page has set, or `usual` */
void pages_start(void);   /* after the device was opened, also if it is opened again: sets all values */
int pages_may_stop_timer(void);    /* sleep.c: 0 while something has to be done at its time, or needs a clock, such as a measurement */
void pages_work(void);    /* in each pass of the main loop: sets values, and handles clicks and forms. It does not wait */

#endif
