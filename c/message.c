/* A sentence for each number, in C: a function in Rattle cannot return a pointer. */
#include "anafzir.h"

const char *anafzir_message(uint32_t number)
{
    switch (number) {
    case ANAFZIR_DONE:
        return "There is a result.";
    case ANAFZIR_BAD_TYPE:
        return "The type cannot be read, or a limit has no place in it.";
    case ANAFZIR_MIXED_TYPE:
        return "The type's lists do not belong together.";
    case ANAFZIR_BAD_FORM:
        return "The input does not look like a value of the type.";
    case ANAFZIR_NO_SUCH_VALUE:
        return "There is no such date, time or difference.";
    case ANAFZIR_NOT_IN_TYPE:
        return "The value exists, and the type does not have it.";
    case ANAFZIR_NOT_CANONICAL:
        return "The octets are not what the encoder writes for the value.";
    case ANAFZIR_SHORT_ROOM:
        return "The room is shorter than the result.";
    default:
        return "No function returns this number.";
    }
}
