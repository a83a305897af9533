#include "qos.h"
#include "fault.h"
#include "tag.h"

#include <stdio.h>
#include <stdlib.h>
#include <string.h>

// How long a write waits where a reader in this process has no room, or where too much is not acknowledged.
#define BLOCKING DDS_MSECS(100)

static dds_duration_t duration(int64_t nanoseconds)
{
    return nanoseconds == FOREVER ? DDS_INFINITY : nanoseconds;
}

dds_qos_t *endpoint_qos(const struct endpoint *end, bool is_writer)
{
    const struct policies *p = &end->policies;
    dds_qos_t *qos = dds_create_qos();
    dds_qset_durability(qos, (dds_durability_kind_t)p->durability);
    dds_qset_deadline(qos, duration(p->deadline));
    dds_qset_latency_budget(qos, duration(p->latency_budget));
    dds_qset_ownership(qos, (dds_ownership_kind_t)p->ownership);
    dds_qset_liveliness(qos, (dds_liveliness_kind_t)p->liveliness, duration(p->lease));
    dds_qset_reliability(qos, (dds_reliability_kind_t)p->reliability, BLOCKING);
    dds_qset_destination_order(qos, (dds_destination_order_kind_t)p->destination_order);
    dds_qset_history(qos, (dds_history_kind_t)p->history, p->depth);
    dds_qset_resource_limits(qos, p->max_samples, p->max_instances, p->max_samples_per_instance);
    if (is_writer && p->durability > 0) {
        // what a late reader gets Cyclone takes from here, and by default that's the last sample of a key
        dds_qset_durability_service(qos, 0, (dds_history_kind_t)p->history, p->depth, p->max_samples, p->max_instances, p->max_samples_per_instance);
    }
    if (is_writer) {
        // an instance that ends with its writer isn't disposed, so its unread samples stay what they are
        dds_qset_writer_data_lifecycle(qos, false);
    }
    dds_qset_userdata(qos, end->name, strlen(end->name));
    dds_qset_entity_name(qos, end->name);
    return qos;
}

dds_qos_t *group_qos(const struct policies *policies)
{
    dds_qos_t *qos = dds_create_qos();
    dds_qset_presentation(qos, (dds_presentation_access_scope_kind_t)policies->access_scope, policies->coherent, policies->ordered);
    if (policies->partitions > 0) {
        const char *names[MOST_PARTITIONS];
        memcpy(names, policies->partition, sizeof names);
        dds_qset_partition(qos, (uint32_t)policies->partitions, names);
    }
    return qos;
}

// The highest number of a process whose ports are below those of the next domain, and below 65536 (DDSI-RTPS 2.5, clause 9.6.2.3).
static int highest_index(uint32_t domain)
{
    enum { FIRST_PORT = 7400, PORTS_OF_DOMAIN = 250, PORTS_OF_PROCESS = 2, LAST_OFFSET = 11, LAST_PORT = 65535 };
    int last = LAST_PORT - FIRST_PORT - PORTS_OF_DOMAIN * (int)domain;
    return ((last < PORTS_OF_DOMAIN ? last : PORTS_OF_DOMAIN - 1) - LAST_OFFSET) / PORTS_OF_PROCESS;
}

void configure(const struct wire *wire)
{
    // each process tells each other one of itself, at every number that one may have: many do so more rarely
    int interval = wire->processes > 5 ? 50 * wire->processes : 250;
    char text[1024], *tag = escaped_tag(wire->tag);
    int length = snprintf(text, sizeof text,
                          "<CycloneDDS><Domain Id=\"any\">"
                          "<General><Interfaces><NetworkInterface name=\"lo\"/></Interfaces><AllowMulticast>false</AllowMulticast></General>"
                          "<Discovery><Tag>%s</Tag><ParticipantIndex>auto</ParticipantIndex><MaxAutoParticipantIndex>%d</MaxAutoParticipantIndex>"
                          "<Peers><Peer Address=\"127.0.0.1\"/></Peers><SPDPInterval>%d ms</SPDPInterval></Discovery>"
                          "<Internal><Test><XmitLossiness>%d</XmitLossiness></Test></Internal>"
                          "</Domain></CycloneDDS>",
                          tag, highest_index(wire->highest_domain), interval, 10 * wire->loss);
    free(tag);
    if (length < 0 || (size_t)length >= sizeof text || setenv("CYCLONEDDS_URI", text, 1) != 0) {
        fail(STATUS_DDS, "Cyclone can't be configured");
    }
}
