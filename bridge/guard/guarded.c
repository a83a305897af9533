/*
 * An application of PING on Cyclone DDS, guarded: guarded-c DEPLOYMENT a1|a2 SAMPLES TAG TRACE [--bug|--past]
 *
 * It writes whenever the guard lets it, until it has taken and written so many samples, and notes each in the trace. With --bug it tries one write more than that,
 * once, and with --past it writes that one past the guard.
 * The last line is `a1 written 100 taken 100 refused 0 rejected 0`. Status: 0 all was written and taken, 1 not within 20 seconds, 3 no guard or no DDS, 4 usage.
 */
#include "ping.h"

/* what a program has done */
struct done {
    long written, taken, refused;
};

static void take_all(ddscheck_dds_end *reader, const struct ping_words *words, struct done *done)
{
    ddscheck_Sample sample;
    void *samples[1] = {&sample};
    dds_sample_info_t info;
    while (ddscheck_dds_take(reader, samples, &info, 1, 1) == 1) {
        if (info.valid_data) {
            done->taken++;
            ping_took(words);
        }
    }
}

/* What came of a write. */
static void note(dds_return_t answer, const struct ping_words *words, struct done *done)
{
    if (answer == DDS_RETCODE_OK) {
        done->written++;
        ping_wrote(words);
    }
    done->refused += answer == DDS_RETCODE_PRECONDITION_NOT_MET;
}

static void write_all(ddscheck_dds_end *writer, struct ping_words *words, struct done *done)
{
    ddscheck_Sample sample;
    memset(&sample, 0, sizeof sample);
    memcpy(sample.key, "k", 2);
    while (done->written < words->samples && ddscheck_may_write(writer->guard, writer->number, 0) == DDSCHECK_OK) {
        note(ddscheck_dds_write(writer, &sample), words, done);
    }
    if (words->bug != PING_NO_BUG && done->written < words->samples) {
        /* the planted bug: one write too many */
        note(words->bug == PING_BUG ? ddscheck_dds_write(writer, &sample) : dds_write(writer->entity, &sample), words, done);
        words->bug = PING_NO_BUG;
    }
}

int main(int count, char **words)
{
    struct ping_words read;
    struct done done = {0, 0, 0};
    if (!ping_read_words(count, words, &read)) {
        fprintf(stderr, "guarded-c: DEPLOYMENT a1|a2 SAMPLES TAG TRACE [--bug|--past]\n");
        return 4;
    }
    ping_configure(read.tag);
    ddscheck_guard guard = DDSCHECK_GUARD_CLOSED;
    ddscheck_dds_end writer = DDSCHECK_DDS_END(0, ping_key, NULL), reader = DDSCHECK_DDS_END(0, ping_key, NULL);
    const ddscheck_dds_name ends[2] = {{read.side->writer, &writer}, {read.side->reader, &reader}};
    ddscheck_dds_difference difference;
    if (!ping_meet(read.side, &writer.entity, &reader.entity) || ddscheck_dds_open(read.deployment, read.side->application, &guard, ends, 2, &difference) != DDSCHECK_OK) {
        return 3;
    }
    for (int at = 0; at < 20000 && (done.written < read.samples || done.taken < read.samples); at++) {
        take_all(&reader, &read, &done);
        write_all(&writer, &read, &done);
        dds_sleepfor(DDS_MSECS(1));
    }
    dds_wait_for_acks(writer.entity, DDS_SECS(5));
    printf("%s written %ld taken %ld refused %ld rejected %u\n", read.side->application, done.written, done.taken, done.refused, ping_rejected(reader.entity));
    return fclose(read.trace) != 0 || ddscheck_close(&guard) != DDSCHECK_OK || done.written < read.samples || done.taken < read.samples;
}
