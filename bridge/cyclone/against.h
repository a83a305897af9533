// What of a system that runs differs from a deployment file.
#ifndef AGAINST_H
#define AGAINST_H

#include "captured.h"

// Reads a deployment file by `ddscheck show`, or where its name ends with `.json` what that printed. A bad file ends the program.
const struct deployment *file_to_compare(const char *path);

// Prints a line for each difference, or one document: endpoints that are in the file alone or in the system alone, and types and policies that are others. Endpoints
// of the file that aren't asked for don't count. Gives whether there is no difference.
bool print_differences(const struct deployment *file, const struct captured *captured, const struct asked *asked, bool is_json);

#endif
