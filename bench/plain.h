/* Table and Check in plain C: the formula as a tree that is walked for each row. It stands beside the library only to be
 * timed; it asks what it needs to ask to read a sheet, and answers -1 to anything that it cannot read. */
#ifndef PLAIN_H
#define PLAIN_H

#include <stddef.h>

/* Writes the digits of an output and returns how many. */
int plain_table(const char *sheet, size_t length, int output, char *digits);

/* 1: same; 0: differs, with the lowest output and its lowest row. */
int plain_check(const char *sheet, size_t length, const char *network, size_t network_length, int *output, int *row);

#endif
