#include "spelling.h"

#include <cctype>

namespace {

Word word_at(const std::string &text, size_t start)
{
    size_t end = start;
    while (end < text.size() && isalnum(static_cast<unsigned char>(text[end])))
        end++;
    return Word{start, end};
}

}

std::vector<Word> names_of_sheet(const std::string &text)
{
    std::vector<Word> words;
    for (size_t at = 1; at < text.size(); at++)
        if (text[at - 1] == ' ')
            words.push_back(word_at(text, at));
    return words;
}

std::vector<Word> names_of_network(const std::string &text)
{
    std::vector<Word> words = names_of_sheet(text);
    for (size_t at = text.find(" ("); at != std::string::npos; at = text.find(" (", at + 1))
        words.push_back(word_at(text, at + 2));
    return words;
}

std::string turned(std::string text, const std::vector<Word> &words)
{
    for (const Word &word : words)
        for (size_t at = word.start; at < word.end; at++)
            if (isalpha(static_cast<unsigned char>(text[at])))
                text[at] = char(text[at] ^ 0x20);
    return text;
}
