/*
 * Made-up hashes in progress, in form and not.
 */
#ifndef HARNESS_HASH_MAKER_H
#define HARNESS_HASH_MAKER_H

#include "hash_call.h"

/* Random bytes in every field, now and then all zeros or all ones; size and total are
   mostly such that the hash is in form, else close to that, else any. */
void make_up_hash(enum kind kind, union hash *hash);

#endif
