/* start.h: what start.c offers to the rest of a program. */
#ifndef START_H
#define START_H

/* Where a fault and a program that cannot go on end. Stays there for a debugger; weak, so that a port can do better, such as a reset. */
void halt(void);

#endif
