/* The parts of filing by themselves (crate phases), to be timed. Each asks for what the parts before it have found. */
#ifndef PARTS_H
#define PARTS_H

#include <stddef.h>
#include <stdint.h>

/* How many records the file has; 0 where it is refused. */
uint64_t dagskimra_phase_check(const uint8_t *files, size_t files_length, uint8_t kind, const uint8_t *publisher, size_t publisher_length, uint16_t day, const uint8_t *text, size_t text_length);
void dagskimra_phase_enter(uint8_t *files, size_t files_length, uint8_t *regular, size_t regular_length, uint8_t *corrections, size_t corrections_length, uint8_t kind, uint16_t publisher, uint16_t day, const uint8_t *text, size_t text_length, size_t m);
size_t dagskimra_phase_renew(const uint8_t *table, size_t table_length, const uint8_t *files, size_t files_length, const uint8_t *regular, size_t regular_length, const uint8_t *corrections, size_t corrections_length, uint8_t *entries, size_t entries_length);

#endif
