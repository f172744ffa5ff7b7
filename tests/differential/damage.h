/* damage.h - damage to a lent book: most of it makes the book unsound. */
#ifndef DAMAGE_H
#define DAMAGE_H

#include "lent.h"
#include "random.h"

/* Changes a number or two, or a level or two, or both. */
void lent_damage(struct random *r, struct lent *lent);

#endif
