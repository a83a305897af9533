// Prints the deployment file that the guards of a document's applications read: `text DEPLOYMENT.json`. It is for the test of that text alone.
#include "fault.h"
#include "rules.h"

#include <stdio.h>

int main(int count, char **words)
{
    guard_output();
    if (count != 2) {
        fail(STATUS_USAGE, "it takes one document");
    }
    struct rules rules = rules_of(read_deployment(words[1]));
    fwrite(rules.text, 1, rules.length, stdout);
    return checked_output(STATUS_YES);
}
