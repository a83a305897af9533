// An application of PING on Cyclone DDS, guarded, in C++ without exceptions: guarded-cxx DEPLOYMENT a1|a2 SAMPLES TAG TRACE [--bug|--past]
//
// It does what guarded-c does, and ends with the same line and status.
#include "ddscheck_cyclone.hpp"
#include "ping.h"

#include <cstdio>
#include <cstring>

namespace {

struct Done {
    long written = 0;
    long taken = 0;
    long refused = 0;
};

void take_all(ddscheck_dds_end &reader, const ping_words &words, Done &done)
{
    ddscheck_Sample sample;
    void *samples[1] = {&sample};
    dds_sample_info_t info;
    while (ddscheck_dds_take(&reader, samples, &info, 1, 1) == 1) {
        if (info.valid_data) {
            done.taken++;
            ping_took(&words);
        }
    }
}

// What came of a write.
void note(dds_return_t answer, const ping_words &words, Done &done)
{
    if (answer == DDS_RETCODE_OK) {
        done.written++;
        ping_wrote(&words);
    }
    done.refused += answer == DDS_RETCODE_PRECONDITION_NOT_MET ? 1 : 0;
}

void write_all(ddscheck::Guard &guard, ddscheck_dds_end &writer, ping_words &words, Done &done)
{
    ddscheck_Sample sample{};
    std::memcpy(sample.key, "k", 2);
    while (done.written < words.samples && guard.may_write(writer.number, 0) == DDSCHECK_OK) {
        note(ddscheck_dds_write(&writer, &sample), words, done);
    }
    if (words.bug != PING_NO_BUG && done.written < words.samples) {
        // the planted bug: one write too many
        note(words.bug == PING_BUG ? ddscheck_dds_write(&writer, &sample) : dds_write(writer.entity, &sample), words, done);
        words.bug = PING_NO_BUG;
    }
}

} // namespace

int main(int count, char **words)
{
    ping_words read;
    Done done;
    if (ping_read_words(count, words, &read) == 0) {
        std::fprintf(stderr, "guarded-cxx: DEPLOYMENT a1|a2 SAMPLES TAG TRACE [--bug|--past]\n");
        return 4;
    }
    ping_configure(read.tag);
    ddscheck::Guard guard;
    ddscheck_dds_end writer = DDSCHECK_DDS_END(0, ping_key, nullptr), reader = DDSCHECK_DDS_END(0, ping_key, nullptr);
    if (ping_meet(read.side, &writer.entity, &reader.entity) == 0) {
        return 3;
    }
    const ddscheck::Opened opened = ddscheck::open(guard, read.deployment, read.side->application, {{read.side->writer, &writer}, {read.side->reader, &reader}});
    if (opened.status != DDSCHECK_OK) {
        std::fprintf(stderr, "guarded-cxx: %s %s %s\n", ddscheck_status_name(opened.status), opened.difference.end, opened.difference.what);
        return 3;
    }
    for (int at = 0; at < 20000 && (done.written < read.samples || done.taken < read.samples); at++) {
        take_all(reader, read, done);
        write_all(guard, writer, read, done);
        dds_sleepfor(DDS_MSECS(1));
    }
    dds_wait_for_acks(writer.entity, DDS_SECS(5));
    std::printf("%s written %ld taken %ld refused %ld rejected %u\n", read.side->application, done.written, done.taken, done.refused, ping_rejected(reader.entity));
    return std::fclose(read.trace) != 0 || done.written < read.samples || done.taken < read.samples ? 1 : 0;
}
