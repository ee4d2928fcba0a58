// Where names stand in a text, whatever the case of their letters. A word elsewhere is an operator, or the first of its line.
#ifndef SPELLING_H
#define SPELLING_H

#include <cstddef>
#include <string>
#include <vector>

// Letters and digits from `start` up to `end`.
struct Word {
    size_t start, end;
};

// After a space, in any text but a network sheet.
std::vector<Word> names_of_sheet(const std::string &text);

// After a space, and first in a list.
std::vector<Word> names_of_network(const std::string &text);

// The text with capitals for the small letters of these words, and small letters for the capitals.
std::string turned(std::string text, const std::vector<Word> &words);

#endif
