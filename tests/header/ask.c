/* Asks a QUESTION of what a CALL has answered, kept in a variable of the type KEPT.
 * tests/header.sh compiles it with each of these in turn; nothing runs. */
#include <stdbool.h>

#include "focus_gate.h"

int ask(focus_gate *gate);

int ask(focus_gate *gate)
{
    KEPT answer = CALL;
    (void)gate;
    return QUESTION(answer) != 0;
}
