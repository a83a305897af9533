// A captured deployment as the text of a file.
#ifndef PRINT_H
#define PRINT_H

#include "assume.h"
#include "captured.h"

// What was asked for, of which version the file is, what stands for what discovery doesn't tell, `"?"` where that is NULL, and how many endpoints each node of
// ROS 2 has were left out.
struct printing {
    const struct asked *asked;
    int version;
    const struct assumption *assumption;
    int unasked;
};

// The text of a file: with an application for each participant, a free rule for each writer, and as connections the pairs that match. Where it would be
// too long its comments are left out, and then connections, which is said on standard error; NULL where even that isn't enough. Where something but comments isn't
// there, it is a file that no command reads. The caller frees it.
char *deployment_text(struct captured *captured, const struct printing *printing);

#endif
