#ifndef FILES_H
#define FILES_H

#include <string>

// The bytes of a file, whose name starts at the repository's root.
std::string contents(const std::string &path);

void sheets_of_the_repository();

#endif
