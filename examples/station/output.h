/* Standard output, which must take what the station says. */
#ifndef OUTPUT_H
#define OUTPUT_H

/*
 * Whether standard output and standard error are open; says so if not. A file that is opened gets the lowest free
 * descriptor, and what the station says would go into it.
 */
int is_output_open(void);

/* Hands over what was said so far; gives 0 if that, or anything before, could not be written. */
int flush_output(void);

/* Ends the output; says so and gives 0 if not everything was written. */
int close_output(void);

#endif
