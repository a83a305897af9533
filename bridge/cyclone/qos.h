// The policies of the deployment as those of Cyclone.
#ifndef QOS_H
#define QOS_H

#include "deployment.h"

#include <dds/dds.h>

// The policies of a data writer or data reader. Its name goes along as user data, so that a peer knows whom it has matched. The caller deletes it.
dds_qos_t *endpoint_qos(const struct endpoint *end, bool is_writer);

// The policies of its publisher or subscriber: presentation and partitions.
dds_qos_t *group_qos(const struct policies *policies);

// What the configuration of Cyclone is made of.
struct wire {
    const char *tag;
    // so many percent of the packets are lost
    int loss;
    uint32_t highest_domain;
    // how many processes there may be
    int processes;
};

// The highest domain, by the ports that RTPS gives to domains.
enum { HIGHEST_DOMAIN = 232 };

// Sets the configuration of Cyclone: loopback alone. Nothing may be set already.
void configure(const struct wire *wire);

#endif
