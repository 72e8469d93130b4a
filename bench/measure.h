// The four plans of a cabinet, timed side by side.
#pragma once
#include "cabinet.h"

enum { PROVED, PLAIN_C, PLAIN_RUST, SAME_IDEAS, WAYS, ROUNDS = 30 };

// Processor time, in seconds: that of the program till now, and that of a plan, over so many turns.
double seconds(void);
double time_of(int way, Tables *t, int turns);

// A table: its head, and a row with the best time of each way, in milliseconds, and the answer that all agree on.
void print_head(const char *title, const char *name, const char *number);
void print_row(const char *name, int number, Tables t);
