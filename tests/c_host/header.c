/* The header alone, twice. */
#include "saqhovune.h"
#include "saqhovune.h"
