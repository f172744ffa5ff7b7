/* vectors.h - the pairs NN.steps and NN.expected of a folder. */
#ifndef VECTORS_H
#define VECTORS_H

#include <stdbool.h>

/* Prints the first line that differs of each pair that does not agree, then
 * how many do. True only if all of at least one pair do. */
bool vectors_agree(const char *folder);

#endif
