// Unverified: lrupd's limits on a line of a stream. A build for tests lowers one limit.
#ifndef LINE_LIMITS_H
#define LINE_LIMITS_H

#include <stdint.h>

#ifndef IDENTITIES_OF_A_LINE
#define IDENTITIES_OF_A_LINE 65536
#endif
enum { LITERALS_OF_A_LINE = 65535, DIGITS = 18 };
#define LAST_IDENTITY UINT64_C(999999999999999999)

#endif
