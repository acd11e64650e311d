// The header and the calls from C++: the body is the C test's.
#include "card2.c"
