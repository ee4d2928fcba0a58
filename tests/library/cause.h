// The cause of refusal 8, compared with the oracle's, and with what Map says of each set of outputs on its own.
#ifndef CAUSE_H
#define CAUSE_H

#include "compare.h"

// How often each set of outputs was the cause, and for those without one how often Map gave each answer.
struct CauseTally {
    std::map<size_t, unsigned long> sets;
    Tally none;
};
extern CauseTally causes_of_sheets, causes_of_plas;

// How often the cause was compared with the oracle's, and how often the oracle's searches for it took too long.
extern unsigned long causes_settled, causes_left_out;

// All sets but the empty one of so many outputs, bit o for output o, in the order in which a cause is looked for: those with fewer
// outputs first, and of as many the earlier one first (clause 11.7).
std::vector<size_t> sets_in_order(size_t outputs);

// A valid panel with some of its outputs alone.
Source with_outputs(const Source &source, size_t set);

// What Map answers of a panel with an ample buffer, where `mapped` is its network or nothing.
unsigned answer_of_map(const Panel &panel, const std::string &mapped);

// `number` is what Map answers. Returns the cause; where the oracle's searches took too long the library is asked alone, and not even
// that unless `ask`.
size_t compare_cause(const Panel &panel, unsigned number, bool ask);

// A panel that is written both ways: the cause must be that of the sheet.
void cause_both_ways(const Panel &sheet, size_t of_sheet, const Panel &pla);

// By Map alone: of the panels with some of the outputs, in order, that of the cause is the first that is refused by 8; those before
// it map.
void compare_cause_with_map(const Panel &panel, size_t cause);

#endif
