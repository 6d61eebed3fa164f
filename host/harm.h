/* The mode harm of the host. */
#ifndef HARM_H
#define HARM_H

/*
 * Replays the records of standard input, tries harm at every so-manieth, and prints a line of counts. Ends the program with
 * status 1 and a message at the first answer that isn't as replay.h says.
 */
void harm(unsigned long every);

#endif
