// The plain C desk with the house by value through every request.
#ifndef STEPS_H
#define STEPS_H

#include "wire.h"

// Opens a house and answers whole requests in order; gives their count, 0 where the opening is refused.
size_t steps_run(const struct opening *o, const uint8_t *requests, size_t requests_len,
                 uint8_t *replies, size_t replies_len);

#endif
