/* The signals that ask the station to end: from the keyboard, from another program, or since the terminal is gone. */
#ifndef INTERRUPT_H
#define INTERRUPT_H

/* From here on an interrupt ends nothing by itself, unless it is ignored: it is noted. */
void heed_interrupts(void);

/* The number of the signal that came, or 0. */
int interrupt(void);

/* Waits until there is something to read, or the input has ended, or an interrupt came, also one just before. */
void wait_for_input(int from);

#endif
