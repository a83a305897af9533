#include "interrupt.h"

#include <signal.h>
#include <stddef.h>

static volatile sig_atomic_t is_noted;

static void note(int number)
{
    (void)number;
    is_noted = 1;
}

static void handle(void (*handler)(int))
{
    struct sigaction action = {.sa_handler = handler};
    sigemptyset(&action.sa_mask);
    sigaction(SIGINT, &action, NULL);
    sigaction(SIGTERM, &action, NULL);
}

void note_interrupts(void)
{
    handle(note);
}

void obey_interrupts(void)
{
    handle(SIG_DFL);
}

bool is_interrupted(void)
{
    return is_noted != 0;
}
