/*
 * Guards a reader and a writer of Eclipse Cyclone DDS's C API: ddscheck_dds_take in place of dds_take, ddscheck_dds_write in place of dds_write, and
 * ddscheck_dds_open opens the guard if the QoS of both is that of the deployment file.
 *
 * The keys of a deployment have numbers, and a sample says in its own way which key it has. So each end has a function that gives the number of a sample's
 * key; for a sample of no key of the deployment it gives DDSCHECK_NO_KEY, and the guard refuses it.
 */
#ifndef DDSCHECK_CYCLONE_H
#define DDSCHECK_CYCLONE_H

#include "ddscheck_file.h"

#include <dds/dds.h>

#ifdef __cplusplus
extern "C" {
#endif

#define DDSCHECK_NO_KEY SIZE_MAX

/* A reader or a writer: its guard, its entity, its number in the deployment, how a sample's key is found, and what the guard answered last. */
typedef struct ddscheck_dds_end {
    ddscheck_guard *guard;
    dds_entity_t entity;
    size_t number;
    size_t (*key_of)(const void *sample, void *context);
    /* what key_of gets beside the sample */
    void *context;
    /* after ddscheck_dds_take DDSCHECK_OK, or the first other answer to one of its samples; after ddscheck_dds_write the answer to that */
    ddscheck_status status;
} ddscheck_dds_end;

/* An end of this entity, for ddscheck_dds_open. */
#define DDSCHECK_DDS_END(entity, key_of, context) {NULL, (entity), 0, (key_of), (context), DDSCHECK_OK}

/* An end by its name in the deployment file. */
typedef struct ddscheck_dds_name {
    const char *name;
    ddscheck_dds_end *end;
} ddscheck_dds_name;

/* Where an entity isn't as the file has it: a policy or a limit by its name there, and both numbers, as ddscheck_qos has them. */
typedef struct ddscheck_dds_difference {
    const char *end, *what;
    uint32_t of_file, of_entity;
} ddscheck_dds_difference;

/* A limit as ddscheck_qos has it. */
static inline uint32_t ddscheck_dds_limit(int32_t limit)
{
#ifdef __cplusplus
    return limit == DDS_LENGTH_UNLIMITED ? 0 : static_cast<uint32_t>(limit);
#else
    return limit == DDS_LENGTH_UNLIMITED ? 0 : (uint32_t)limit;
#endif
}

/* The QoS that an entity has. Answers 0 where Cyclone doesn't tell all of it. */
static inline int ddscheck_dds_qos(dds_entity_t entity, ddscheck_qos *qos)
{
    dds_qos_t *all = dds_create_qos();
    dds_durability_kind_t durability = DDS_DURABILITY_VOLATILE;
    dds_reliability_kind_t reliability = DDS_RELIABILITY_BEST_EFFORT;
    dds_history_kind_t history = DDS_HISTORY_KEEP_LAST;
    dds_duration_t blocking = 0;
    int32_t depth = 0, samples = 0, instances = 0, samples_per_instance = 0;
    int is_whole = dds_get_qos(entity, all) == DDS_RETCODE_OK && dds_qget_durability(all, &durability) && dds_qget_reliability(all, &reliability, &blocking) &&
                   dds_qget_history(all, &history, &depth) && dds_qget_resource_limits(all, &samples, &instances, &samples_per_instance);
    dds_delete_qos(all);
    qos->durability = durability == DDS_DURABILITY_VOLATILE ? 0 : durability == DDS_DURABILITY_TRANSIENT_LOCAL ? 1 : durability == DDS_DURABILITY_TRANSIENT ? 2 : 3;
    qos->reliability = reliability == DDS_RELIABILITY_RELIABLE;
    qos->history = history == DDS_HISTORY_KEEP_ALL;
    qos->depth = history == DDS_HISTORY_KEEP_ALL ? 0 : ddscheck_dds_limit(depth);
    qos->max_samples = ddscheck_dds_limit(samples);
    qos->max_instances = ddscheck_dds_limit(instances);
    qos->max_samples_per_instance = ddscheck_dds_limit(samples_per_instance);
    return is_whole;
}

/* Whether two QoS agree; else the first number that differs is told, in this order: history, depth, limits, reliability, durability. */
static inline int ddscheck_dds_agree(const ddscheck_qos *file, const ddscheck_qos *entity, ddscheck_dds_difference *difference)
{
    static const char *const names[7] = {"history", "depth", "max_samples", "max_instances", "max_samples_per_instance", "reliability", "durability"};
    const uint32_t owed[7] = {file->history, file->depth, file->max_samples, file->max_instances, file->max_samples_per_instance, file->reliability, file->durability};
    const uint32_t found[7] = {entity->history, entity->depth, entity->max_samples, entity->max_instances, entity->max_samples_per_instance, entity->reliability, entity->durability};
    size_t at;
    for (at = 0; at < 7; at++) {
        if (owed[at] != found[at]) {
            difference->what = names[at];
            difference->of_file = owed[at];
            difference->of_entity = found[at];
            return 0;
        }
    }
    return 1;
}

/* Finds an end by its name, a writer's or a reader's as its entity is, and compares the QoS of the file with the entity's. */
static inline ddscheck_status ddscheck_dds_find(const char *deployment, size_t length, ddscheck_guard *guard, const ddscheck_dds_name *named, ddscheck_dds_difference *difference)
{
    ddscheck_qos of_file, of_entity;
    int is_writer = dds_get_publisher(named->end->entity) > 0;
    ddscheck_status status = is_writer ? ddscheck_writer(guard, named->name, &named->end->number) : ddscheck_reader(guard, named->name, &named->end->number);
    difference->end = named->name;
    difference->what = "name";
    if (status == DDSCHECK_OK) {
        status = is_writer ? ddscheck_read_writer(deployment, length, named->end->number, &of_file) : ddscheck_read_reader(deployment, length, named->end->number, &of_file);
    }
    if (status == DDSCHECK_OK) {
        difference->what = "entity";
        status = ddscheck_dds_qos(named->end->entity, &of_entity) && ddscheck_dds_agree(&of_file, &of_entity, difference) ? DDSCHECK_OK : DDSCHECK_OTHER_QOS;
    }
    named->end->guard = guard;
    return status;
}

/*
 * Opens a guard by the path of the deployment file, finds each end by its name, and compares what discovery can't see: history, depth, limits, reliability and
 * durability of its entity with those in the file. Where one differs that is told, the guard stays closed, and the answer is DDSCHECK_OTHER_QOS. Each end's entity
 * and key_of are there before; its guard and number are set here.
 */
static inline ddscheck_status ddscheck_dds_open(const char *path, const char *application, ddscheck_guard *guard, const ddscheck_dds_name *ends, size_t count,
    ddscheck_dds_difference *difference)
{
    char *bytes = NULL;
    size_t length = 0, at;
    ddscheck_status status = DDSCHECK_NULL;
    if (difference == NULL || (ends == NULL && count > 0)) {
        return DDSCHECK_NULL;
    }
    difference->end = difference->what = "";
    difference->of_file = difference->of_entity = 0;
    for (at = 0; at < count; at++) {
        if (ends[at].name == NULL || ends[at].end == NULL || ends[at].end->key_of == NULL) {
            return DDSCHECK_NULL;
        }
    }
    status = ddscheck_read_file(path, &bytes, &length);
    if (status == DDSCHECK_OK) {
        status = ddscheck_open(bytes, length, application, guard);
    }
    if (status == DDSCHECK_OK) {
        for (at = 0; status == DDSCHECK_OK && at < count; at++) {
            status = ddscheck_dds_find(bytes, length, guard, &ends[at], difference);
        }
        if (status != DDSCHECK_OK) {
            (void)ddscheck_close(guard);
        }
    }
    free(bytes);
    return status;
}

/* dds_take, and each sample with data that it gives is told to the guard, whose answer is in the reader's status. Answers what dds_take answers, and
   DDS_RETCODE_BAD_PARAMETER where the reader is NULL. */
static inline dds_return_t ddscheck_dds_take(ddscheck_dds_end *reader, void **samples, dds_sample_info_t *infos, size_t size, uint32_t most)
{
    dds_return_t taken = DDS_RETCODE_BAD_PARAMETER;
    if (reader == NULL) {
        return taken;
    }
    taken = dds_take(reader->entity, samples, infos, size, most);
    reader->status = DDSCHECK_OK;
    for (dds_return_t at = 0; at < taken; at++) {
        if (infos[at].valid_data) {
            ddscheck_status status = ddscheck_take(reader->guard, reader->number, reader->key_of(samples[at], reader->context));
            reader->status = reader->status == DDSCHECK_OK ? status : reader->status;
        }
    }
    return taken;
}

/* dds_write where the guard lets the sample be written, else DDS_RETCODE_PRECONDITION_NOT_MET, and nothing is written; the guard's answer is in the writer's
   status. Where dds_write then fails, the permit stays used: the program writes one sample less than it might, and never one more, unless ddscheck_dds_undo_write
   takes the write back. */
static inline dds_return_t ddscheck_dds_write(ddscheck_dds_end *writer, const void *sample)
{
    if (writer == NULL || sample == NULL) {
        return DDS_RETCODE_BAD_PARAMETER;
    }
    writer->status = ddscheck_write(writer->guard, writer->number, writer->key_of(sample, writer->context));
    if (writer->status != DDSCHECK_OK) {
        return DDS_RETCODE_PRECONDITION_NOT_MET;
    }
    return dds_write(writer->entity, sample);
}

/* Takes back the last write of a sample, one that dds_write refused without writing it. A reader of the same process can make dds_write answer
   DDS_RETCODE_TIMEOUT for a sample that others get: don't take that back. Answers what ddscheck_undo_write does, as the writer's status then is. */
static inline ddscheck_status ddscheck_dds_undo_write(ddscheck_dds_end *writer, const void *sample)
{
    if (writer == NULL || sample == NULL) {
        return DDSCHECK_NULL;
    }
    writer->status = ddscheck_undo_write(writer->guard, writer->number, writer->key_of(sample, writer->context));
    return writer->status;
}

#ifdef __cplusplus
}
#endif

#endif
