/* The six things that swd_pins.c asks of whatever has the pins. Levels are 0 and 1. */
#ifndef PINS_H
#define PINS_H

void pins_xres(int level);     /* XRES; 0 resets the board */
void pins_clock(int level);    /* SWDCLK */
void pins_drive(int level);    /* SWDIO as an output at this level */
void pins_release(void);       /* SWDIO as an input, with a pull-up */
int pins_sample(void);         /* SWDIO's level */
void pins_pause_us(unsigned);  /* waits at least so long */

#endif
