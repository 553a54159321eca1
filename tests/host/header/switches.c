/*
 * A switch over each of the header's enums, with every case and no default. Compiled as it is there is
 * no warning; with WITHOUT_KIND, WITHOUT_CODE, WITHOUT_REFUSAL or WITHOUT_OUTCOME defined one case is
 * missing, and the compiler must warn of it.
 */
#include "pi_engine.h"

int of_kind(PiKind kind);
int of_code(PiCode code);
int of_refusal(PiRefusal refusal);
int of_outcome(PiOutcome outcome);

int of_kind(PiKind kind)
{
    switch (kind) {
    case PI_KIND_NUM:
    case PI_KIND_BOO:
    case PI_KIND_ID:
    case PI_KIND_SUM:
    case PI_KIND_SUB:
    case PI_KIND_MUL:
    case PI_KIND_DIV:
    case PI_KIND_EQ:
    case PI_KIND_LT:
    case PI_KIND_LE:
    case PI_KIND_GT:
    case PI_KIND_GE:
    case PI_KIND_AND:
    case PI_KIND_OR:
    case PI_KIND_NOT:
    case PI_KIND_DEREF:
#ifndef WITHOUT_KIND
    case PI_KIND_VALREF:
#endif
        return 1;
    case PI_KIND_ASSIGN:
    case PI_KIND_LOOP:
    case PI_KIND_CSEQ:
    case PI_KIND_BLK:
    case PI_KIND_CALL:
    case PI_KIND_COND:
        return 2;
    case PI_KIND_BIND:
    case PI_KIND_DSEQ:
        return 3;
    case PI_KIND_REF:
    case PI_KIND_ABS:
    case PI_KIND_FORMAL:
        return 4;
    }
    return 0;
}

int of_code(PiCode code)
{
    switch (code) {
    case PI_CODE_INTEGER:
    case PI_CODE_TRUTH:
    case PI_CODE_INTEGER_CELL:
    case PI_CODE_TRUTH_CELL:
        return 1;
#ifndef WITHOUT_CODE
    case PI_CODE_COMMAND:
        return 2;
#endif
    }
    return 0;
}

int of_refusal(PiRefusal refusal)
{
    switch (refusal) {
    case PI_REFUSAL_NONE:
        return 0;
    case PI_REFUSAL_LENGTH:
    case PI_REFUSAL_COUNTS:
    case PI_REFUSAL_KIND:
    case PI_REFUSAL_OPERAND:
    case PI_REFUSAL_TREE:
    case PI_REFUSAL_DEPTH:
        return 1;
    case PI_REFUSAL_UNBOUND:
    case PI_REFUSAL_TYPE:
    case PI_REFUSAL_REPEATED:
    case PI_REFUSAL_NOT_ASSIGNABLE:
    case PI_REFUSAL_CALL:
        return 2;
    case PI_REFUSAL_REGISTERS:
    case PI_REFUSAL_BUDGET:
    case PI_REFUSAL_WORK:
        return 3;
    case PI_REFUSAL_STEPS:
    case PI_REFUSAL_ZERO_DIVISOR:
    case PI_REFUSAL_OUT_OF_RANGE:
#ifndef WITHOUT_REFUSAL
    case PI_REFUSAL_CELLS:
#endif
    case PI_REFUSAL_BINDINGS:
    case PI_REFUSAL_VALUES:
    case PI_REFUSAL_CONTROL:
        return 4;
    case PI_REFUSAL_TOO_MANY_STEPS:
        return 5;
    case PI_REFUSAL_SHORT_PAGE:
        return 6;
    case PI_REFUSAL_CROSSED_LIMITS:
    case PI_REFUSAL_LOOP:
    case PI_REFUSAL_UNSAFE_ARITHMETIC:
        return 7;
    }
    return 0;
}

int of_outcome(PiOutcome outcome)
{
    switch (outcome) {
    case PI_OUTCOME_NONE:
        return 0;
    case PI_OUTCOME_NUMBER:
    case PI_OUTCOME_TRUTH:
        return 1;
#ifndef WITHOUT_OUTCOME
    case PI_OUTCOME_CELL:
        return 2;
#endif
    }
    return 0;
}
