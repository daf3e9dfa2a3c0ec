/*
 * chance.h: numbers by chance, the same ones for the same seed on every machine.
 *
 * There is one stream of numbers. It is set anew for each script and each sheet, from the seed, the family
 * and the number within the family, so that each can be made again by itself.
 *
 * What is made of them is the same on every machine too, as long as no two draws stand where C leaves the
 * order of evaluation open: in the arguments of one call, the entries of one list, the operands of one
 * operator. One of them then has a statement of its own.
 */
#ifndef CHANCE_H
#define CHANCE_H

#include <stdbool.h>
#include <stddef.h>
#include <stdint.h>

/* Sets the stream. */
void chance_set(uint64_t seed, uint64_t family, uint64_t number);

/* Any 64-bit number. */
uint64_t any(void);

/* A number from 0 to bound - 1; bound is not 0. */
uint32_t below(uint32_t bound);

/* A number from low to high, both included. */
uint32_t from(uint32_t low, uint32_t high);

/* Yes in so many of a hundred cases. */
bool chance(uint32_t percent);

/* One of the numbers of a list. */
uint32_t one_of(const uint32_t *list, size_t length);

#define ONE_OF(list) one_of((list), sizeof(list) / sizeof((list)[0]))

/* An index into a list of weights, each as likely as its weight; the weights' sum is not 0. */
size_t by_weight(const uint32_t *weights, size_t length);

#define BY_WEIGHT(weights) by_weight((weights), sizeof(weights) / sizeof((weights)[0]))

#endif
