// An interrupt ends what takes a time, and what was found by then is printed.
#ifndef INTERRUPT_H
#define INTERRUPT_H

#include <stdbool.h>

// From here on an interrupt is noted, and no more.
void note_interrupts(void);

// From here on an interrupt ends the program.
void obey_interrupts(void);

// Whether one was noted.
bool is_interrupted(void);

#endif
