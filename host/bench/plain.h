/*
 * plain.h - the rules of the device in plain C, without a single check: what
 * a C programmer would write who trusts his caller. It is here to be measured
 * against, and is itself compared with the second implementation.
 */
#ifndef PLAIN_H
#define PLAIN_H

#include <stddef.h>
#include <stdint.h>

/*
 * Run a tape of that many accepted records on an accepted image. The answers
 * have room for all of them. What is not accepted has no defined meaning.
 */
void plain_run(uint8_t *image, const uint8_t *tape, size_t records, uint8_t *answers);

#endif
