#include "system.h"
#include "fault.h"
#include "qos.h"

#include <stdlib.h>
#include <string.h>

static dds_entity_t made(dds_entity_t handle, const char *what, const char *name)
{
    if (handle < 0) {
        fail(STATUS_DDS, "Cyclone makes no %s %s: %s", what, name, dds_strretcode(-handle));
    }
    return handle;
}

// Whether the filter of a reader lets a sample pass.
static bool passes(const void *sample, void *argument)
{
    const struct cache *cache = argument;
    int key = key_named(cache->topic, ((const ddscheck_Sample *)sample)->key);
    return key >= 0 && cache->end->hears[key];
}

// A topic entity. Each endpoint has its own, since in Cyclone a filter stands at the topic.
static dds_entity_t make_topic(const struct cyclone *system, const struct endpoint *end)
{
    const struct topic *topic = &system->lists->topic[end->topic];
    // the descriptor that idlc made, under the name that the deployment gives the type, and without a description that would tell another one
    const dds_topic_descriptor_t form = {
        .m_size = ddscheck_Sample_desc.m_size,
        .m_align = ddscheck_Sample_desc.m_align,
        .m_flagset = ddscheck_Sample_desc.m_flagset & ~DDS_TOPIC_XTYPES_METADATA,
        .m_nkeys = ddscheck_Sample_desc.m_nkeys,
        .m_typename = topic->type,
        .m_keys = ddscheck_Sample_desc.m_keys,
        .m_nops = ddscheck_Sample_desc.m_nops,
        .m_ops = ddscheck_Sample_desc.m_ops,
        .m_meta = ddscheck_Sample_desc.m_meta,
    };
    return made(dds_create_topic(system->participant[end->participant], &form, topic->name, NULL, NULL), "topic", topic->name);
}

static void make_writer(struct cyclone *system, int number)
{
    const struct endpoint *end = &system->lists->writer[number];
    dds_qos_t *group = group_qos(&end->policies), *qos = endpoint_qos(end, true);
    dds_entity_t publisher = made(dds_create_publisher(system->participant[end->participant], group, NULL), "publisher for", end->name);
    system->writer[number].handle = made(dds_create_writer(publisher, make_topic(system, end), qos, NULL), "writer", end->name);
    dds_delete_qos(group);
    dds_delete_qos(qos);
}

static void make_reader(struct cyclone *system, int number)
{
    const struct endpoint *end = &system->lists->reader[number];
    struct cache *cache = &system->cache[number];
    open_cache(cache, system->lists, number, &system->change[end->application]);
    dds_qos_t *group = group_qos(&end->policies), *qos = endpoint_qos(end, false);
    dds_entity_t subscriber = made(dds_create_subscriber(system->participant[end->participant], group, NULL), "subscriber for", end->name);
    dds_entity_t topic = make_topic(system, end);
    if (end->has_filter) {
        made(dds_set_topic_filter_and_arg(topic, passes, cache), "filter of", end->name);
    }
    dds_listener_t *listener = cache_listener(cache);
    dds_entity_t reader = made(dds_create_reader(subscriber, topic, qos, listener), "reader", end->name);
    pthread_mutex_lock(&cache->lock);
    cache->reader = reader;
    pthread_mutex_unlock(&cache->lock);
    dds_delete_listener(listener);
    dds_delete_qos(group);
    dds_delete_qos(qos);
}

struct cyclone *open_system(const struct deployment *lists, const bool *is_here)
{
    struct cyclone *system = room(1, sizeof *system);
    system->lists = lists;
    system->is_here = is_here;
    system->participant = room((unsigned long)lists->participants, sizeof *system->participant);
    system->writer = room((unsigned long)lists->writers, sizeof *system->writer);
    system->cache = room((unsigned long)lists->readers, sizeof *system->cache);
    system->change = room((unsigned long)lists->applications, sizeof *system->change);
    for (int at = 0; at < lists->applications; at++) {
        open_change(&system->change[at]);
    }
    for (int at = 0; at < lists->participants; at++) {
        if (is_here[at]) {
            const struct participant *one = &lists->participant[at];
            dds_qos_t *qos = dds_create_qos();
            dds_qset_entity_name(qos, one->name);
            system->participant[at] = made(dds_create_participant(one->domain, qos, NULL), "participant", one->name);
            dds_delete_qos(qos);
        }
    }
    for (int at = 0; at < lists->readers; at++) {
        if (reader_is_here(system, at)) {
            make_reader(system, at);
        }
    }
    for (int at = 0; at < lists->writers; at++) {
        if (writer_is_here(system, at)) {
            make_writer(system, at);
        }
    }
    return system;
}

bool writer_is_here(const struct cyclone *system, int writer)
{
    return system->is_here[system->lists->writer[writer].participant];
}

bool reader_is_here(const struct cyclone *system, int reader)
{
    return system->is_here[system->lists->reader[reader].participant];
}

// Whether the name that an endpoint has sent along is this one.
static bool has_name(dds_builtintopic_endpoint_t *found, const char *name)
{
    void *data = NULL;
    size_t length = 0;
    bool is_it = dds_qget_userdata(found->qos, &data, &length) && length == strlen(name) && memcmp(data, name, length) == 0;
    dds_free(data);
    return is_it;
}

// Whether one of the endpoints that an endpoint has matched has this name.
static bool has_matched(dds_entity_t end, bool is_writer, const char *name)
{
    dds_instance_handle_t handles[1024];
    dds_return_t count = is_writer ? dds_get_matched_subscriptions(end, handles, 1024) : dds_get_matched_publications(end, handles, 1024);
    bool found = false;
    for (int at = 0; at < count && at < 1024 && !found; at++) {
        dds_builtintopic_endpoint_t *other =
            is_writer ? dds_get_matched_subscription_data(end, handles[at]) : dds_get_matched_publication_data(end, handles[at]);
        if (other != NULL) {
            found = has_name(other, name);
            dds_builtintopic_free_endpoint(other);
        }
    }
    return found;
}

bool writer_has(const struct cyclone *system, int writer, int reader)
{
    return has_matched(system->writer[writer].handle, true, system->lists->reader[reader].name);
}

bool reader_has(const struct cyclone *system, int reader, int writer)
{
    return has_matched(system->cache[reader].reader, false, system->lists->writer[writer].name);
}

bool is_intended(const struct deployment *lists, int writer, int reader)
{
    for (int at = 0; at < lists->connections; at++) {
        if (lists->connection[at].writer == writer && lists->connection[at].reader == reader) {
            return true;
        }
    }
    return false;
}
