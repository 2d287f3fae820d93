/* The entry of the static library, which crate runs_c exports. */
#ifndef RALLWOG_H
#define RALLWOG_H

#include <stddef.h>
#include <stdint.h>

/* Plays a script of 80-byte records on an empty shelf of 256 cells under the number rule.
   0: 16 bytes for each record are written to answers, and what lies past them stays.
   1: the script is unfit, or answers has less than 16 bytes a record; nothing is written. */
uint32_t run_script(const uint8_t *script, size_t script_len, uint8_t *answers, size_t answers_len);

#endif
