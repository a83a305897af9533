#include "raw.h"
#include "change.h"
#include "fault.h"

#include <dds/ddsi/ddsi_serdata.h>
#include <dds/ddsi/ddsi_sertype.h>
#include <dds/ddsi/q_protocol.h>
#include <dds/ddsi/q_radmin.h>
#include <stdio.h>
#include <stdlib.h>
#include <string.h>

// What Cyclone keeps of a sample.
struct kept {
    struct ddsi_serdata head;
    struct raw raw;
};

static struct ddsi_serdata *new_kept(const struct ddsi_sertype *type, enum ddsi_serdata_kind kind, uint64_t number)
{
    struct kept *kept = room(1, sizeof *kept);
    ddsi_serdata_init(&kept->head, type, kind);
    kept->raw = (struct raw){.number = number, .time = now()};
    return &kept->head;
}

// ── samples

// The number of a sample stands in its message (DDSI-RTPS 2.5, clause 8.3.8.2), which Cyclone 0.10 has put in the order of bytes of this machine and keeps until
// here. No interface of its own tells it.
static struct ddsi_serdata *from_message(const struct ddsi_sertype *type, enum ddsi_serdata_kind kind, const struct nn_rdata *chain, size_t size)
{
    const Data_DataFrag_common_t *message = (const void *)NN_RMSG_PAYLOADOFF(chain->rmsg, NN_RDATA_SUBMSG_OFF(chain));
    (void)size;
    return new_kept(type, kind, (uint64_t)(uint32_t)message->writerSN.high << 32 | message->writerSN.low);
}

static struct ddsi_serdata *from_bytes(const struct ddsi_sertype *type, enum ddsi_serdata_kind kind, ddsrt_msg_iovlen_t count, const ddsrt_iovec_t *bytes,
                                       size_t size)
{
    (void)count;
    (void)bytes;
    (void)size;
    return new_kept(type, kind, 0);
}

static struct ddsi_serdata *from_key(const struct ddsi_sertype *type, const struct ddsi_keyhash *key)
{
    (void)key;
    return new_kept(type, SDK_KEY, 0);
}

// Nothing is written here.
static struct ddsi_serdata *from_sample(const struct ddsi_sertype *type, enum ddsi_serdata_kind kind, const void *sample)
{
    (void)type;
    (void)kind;
    (void)sample;
    return NULL;
}

static struct ddsi_serdata *to_untyped(const struct ddsi_serdata *one)
{
    return new_kept(one->type, SDK_KEY, 0);
}

static bool to_raw(const struct ddsi_serdata *one, void *sample, void **room_at, void *room_end)
{
    (void)room_at;
    (void)room_end;
    *(struct raw *)sample = ((const struct kept *)one)->raw;
    return true;
}

static bool untyped_to_raw(const struct ddsi_sertype *type, const struct ddsi_serdata *one, void *sample, void **room_at, void *room_end)
{
    (void)type;
    (void)one;
    (void)room_at;
    (void)room_end;
    *(struct raw *)sample = (struct raw){.number = 0};
    return true;
}

static bool are_of_one_key(const struct ddsi_serdata *one, const struct ddsi_serdata *other)
{
    (void)one;
    (void)other;
    return true;
}

// ── their bytes, of which none is kept

static uint32_t size_of(const struct ddsi_serdata *one)
{
    (void)one;
    return 4;
}

static void to_bytes(const struct ddsi_serdata *one, size_t offset, size_t size, void *bytes)
{
    (void)one;
    (void)offset;
    memset(bytes, 0, size);
}

static struct ddsi_serdata *to_bytes_ref(const struct ddsi_serdata *one, size_t offset, size_t size, ddsrt_iovec_t *bytes)
{
    static char none[4];
    (void)offset;
    *bytes = (ddsrt_iovec_t){.iov_base = none, .iov_len = size < sizeof none ? size : sizeof none};
    return ddsi_serdata_ref(one);
}

static void to_bytes_unref(struct ddsi_serdata *one, const ddsrt_iovec_t *bytes)
{
    (void)bytes;
    ddsi_serdata_unref(one);
}

static void free_kept(struct ddsi_serdata *one)
{
    free(one);
}

static size_t print_kept(const struct ddsi_sertype *type, const struct ddsi_serdata *one, char *text, size_t size)
{
    (void)type;
    (void)one;
    return (size_t)snprintf(text, size, "(raw)");
}

static void key_of(const struct ddsi_serdata *one, struct ddsi_keyhash *key, bool is_hashed)
{
    (void)one;
    (void)is_hashed;
    memset(key, 0, sizeof *key);
}

static const struct ddsi_serdata_ops KEPT = {
    .eqkey = are_of_one_key,
    .get_size = size_of,
    .from_ser = from_message,
    .from_ser_iov = from_bytes,
    .from_keyhash = from_key,
    .from_sample = from_sample,
    .to_ser = to_bytes,
    .to_ser_ref = to_bytes_ref,
    .to_ser_unref = to_bytes_unref,
    .to_sample = to_raw,
    .to_untyped = to_untyped,
    .untyped_to_sample = untyped_to_raw,
    .free = free_kept,
    .print = print_kept,
    .get_keyhash = key_of,
};

// ── the type

static void free_type(struct ddsi_sertype *type)
{
    ddsi_sertype_fini(type);
    free(type);
}

static void zero_raws(const struct ddsi_sertype *type, void *samples, size_t count)
{
    (void)type;
    memset(samples, 0, count * sizeof(struct raw));
}

static void realloc_raws(void **places, const struct ddsi_sertype *type, void *old, size_t old_count, size_t count)
{
    struct raw *raws = realloc(old, (count > 0 ? count : 1) * sizeof *raws);
    (void)type;
    if (raws == NULL) {
        fail(STATUS_DDS, "memory ran out");
    }
    if (count > old_count) {
        memset(raws + old_count, 0, (count - old_count) * sizeof *raws);
    }
    for (size_t at = 0; at < count; at++) {
        places[at] = raws + at;
    }
}

static void free_raws(const struct ddsi_sertype *type, void **places, size_t count, dds_free_op_t what)
{
    (void)type;
    if ((what & DDS_FREE_ALL_BIT) != 0 && count > 0) {
        free(places[0]);
    }
}

static bool are_equal(const struct ddsi_sertype *one, const struct ddsi_sertype *other)
{
    (void)one;
    (void)other;
    return true;
}

static uint32_t hash_of(const struct ddsi_sertype *type)
{
    (void)type;
    return 0;
}

static const struct ddsi_sertype_ops RAW = {
    .version = ddsi_sertype_v0,
    .free = free_type,
    .zero_samples = zero_raws,
    .realloc_samples = realloc_raws,
    .free_samples = free_raws,
    .equal = are_equal,
    .hash = hash_of,
};

dds_entity_t raw_topic(dds_entity_t participant, const char *name, const char *type, bool has_keys)
{
    struct ddsi_sertype *raw = room(1, sizeof *raw);
    ddsi_sertype_init(raw, type, &RAW, &KEPT, !has_keys);
    dds_entity_t topic = dds_create_topic_sertype(participant, name, &raw, NULL, NULL, NULL);
    if (topic < 0) {
        ddsi_sertype_unref(raw);
    }
    return topic;
}
