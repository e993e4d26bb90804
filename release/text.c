/* The one file of the shared library beside the two archives: it makes the header's zg_refusal_text a symbol, for those
 * who can't include the header. */
#define ZG_TEXT_SYMBOL
#include "zompelgors.h"
