// A writer and a reader that comes three seconds after its writes, on Fast DDS, in one process with two participants: what the late reader is handed.
//
//   fast-late DOMAIN SAMPLES DEPTH SERVICE OFFERED REQUESTED LOSS SEED SECONDS
//
// The writer writes so many samples at once. DEPTH is that of its history, SERVICE that of its DURABILITY_SERVICE: a number for KEEP_LAST, or `all`. The reader is as
// deep, and both are RELIABLE. OFFERED is the writer's durability and REQUESTED the reader's: VOLATILE or TRANSIENT_LOCAL. LOSS percent of all packets are dropped, as
// SEED draws. When the reader has all, or nothing has come for SECONDS, the writer writes one more, which shows that the two are in touch.
// It prints a line. Status: 0 the reader took all that was written before it came, in order, 1 else, 3 a fault, 4 of usage.
#include "fast.hpp"

#include <algorithm>
#include <mutex>
#include <random>

using namespace fast;

namespace {

constexpr std::chrono::seconds LATE(3);
// how long the reader waits for what is written once it's there
constexpr std::chrono::seconds PATIENCE(60);

struct Words {
    long domain, samples;
    HistoryQosPolicy history, service;
    DurabilityQosPolicyKind offered, requested;
    long loss, seed;
    std::chrono::seconds patience;
};

// Which packets get lost, and how many did.
class Losses {
public:
    explicit Losses(const Words &words) : percent_(words.loss), draws_(static_cast<unsigned>(words.seed))
    {
    }

    bool loses_next()
    {
        const std::lock_guard<std::mutex> guard(lock_);
        const bool is_lost = std::uniform_int_distribution<long>(0, 99)(draws_) < percent_;
        sent_++;
        lost_ += is_lost;
        return is_lost;
    }

    void print()
    {
        const std::lock_guard<std::mutex> guard(lock_);
        printf("%ld of %ld packets lost", lost_, sent_);
    }

private:
    std::mutex lock_;
    const long percent_;
    std::mt19937 draws_;
    long sent_ = 0, lost_ = 0;
};

Topic *open_lossy_topic(const Words &words, Losses &losses, DomainParticipant **participant)
{
    auto transport = loopback();
    transport->messages_filter_ = [&losses](auto &) { return losses.loses_next(); };
    return open_topic(words.domain, transport, participant);
}

DataWriter *open_writer(const Words &words, Losses &losses)
{
    DomainParticipant *participant;
    Topic *topic = open_lossy_topic(words, losses, &participant);
    DataWriterQos qos = DATAWRITER_QOS_DEFAULT;
    qos.durability().kind = words.offered;
    qos.history() = words.history;
    qos.durability_service().history_kind = words.service.kind;
    qos.durability_service().history_depth = words.service.depth;
    qos.data_sharing().off();
    return need(need(participant->create_publisher(PUBLISHER_QOS_DEFAULT), "publisher")->create_datawriter(topic, qos), "writer");
}

DataReader *open_reader(const Words &words, Losses &losses)
{
    DomainParticipant *participant;
    Topic *topic = open_lossy_topic(words, losses, &participant);
    DataReaderQos qos = DATAREADER_QOS_DEFAULT;
    qos.reliability().kind = RELIABLE_RELIABILITY_QOS;
    qos.durability().kind = words.requested;
    qos.history() = words.history;
    qos.data_sharing().off();
    return need(need(participant->create_subscriber(SUBSCRIBER_QOS_DEFAULT), "subscriber")->create_datareader(topic, qos), "reader");
}

void write(DataWriter *writer, long number)
{
    Sample sample = {number, Clock::now().time_since_epoch().count()};
    if (!writer->write(&sample)) {
        stop(3, "a write", " failed");
    }
}

struct Taken {
    long count = 0, last = 0;
    bool is_in_order = true;
};

// Takes until this number has come, or until nothing has for too long.
void take_until(DataReader *reader, long number, std::chrono::seconds patience, Taken &taken)
{
    Clock::time_point heard = Clock::now();
    while (taken.last < number && Clock::now() - heard < patience) {
        Sample sample = {};
        SampleInfo info;
        if (reader->take_next_sample(&sample, &info) == ReturnCode_t::RETCODE_OK && info.valid_data) {
            taken.count++;
            taken.is_in_order &= sample.number > taken.last;
            taken.last = std::max(taken.last, sample.number);
            heard = Clock::now();
        } else {
            std::this_thread::sleep_for(std::chrono::milliseconds(1));
        }
    }
}

HistoryQosPolicy history_of(const char *word)
{
    HistoryQosPolicy found;
    if (strcmp(word, "all") == 0) {
        found.kind = KEEP_ALL_HISTORY_QOS;
    } else {
        found.kind = KEEP_LAST_HISTORY_QOS;
        found.depth = static_cast<int32_t>(number(word, 1, 5000));
    }
    return found;
}

DurabilityQosPolicyKind durability_of(const char *word)
{
    if (strcmp(word, "VOLATILE") == 0) {
        return VOLATILE_DURABILITY_QOS;
    }
    if (strcmp(word, "TRANSIENT_LOCAL") != 0) {
        stop(4, word, " is neither VOLATILE nor TRANSIENT_LOCAL");
    }
    return TRANSIENT_LOCAL_DURABILITY_QOS;
}

} // namespace

int main(int count, char **word)
{
    if (count != 10) {
        fprintf(stderr, "fast-late DOMAIN SAMPLES DEPTH SERVICE OFFERED REQUESTED LOSS SEED SECONDS\n");
        return 4;
    }
    const Words words = {number(word[1], 0, 230), number(word[2], 1, 1000), history_of(word[3]), history_of(word[4]), durability_of(word[5]), durability_of(word[6]),
                         number(word[7], 0, 90), number(word[8], 0, 1000000), std::chrono::seconds(number(word[9], 1, 600))};
    Losses losses(words);
    DataWriter *writer = open_writer(words, losses);
    for (long at = 1; at <= words.samples; at++) {
        write(writer, at);
    }
    std::this_thread::sleep_for(LATE);
    const Clock::time_point begun = Clock::now();
    DataReader *reader = open_reader(words, losses);
    await_match(writer, reader);
    Taken taken;
    take_until(reader, words.samples, words.patience, taken);
    const double after = std::chrono::duration<double>(Clock::now() - begun).count();
    const Taken handed = taken;
    const bool is_all = handed.count == words.samples && handed.is_in_order;
    write(writer, words.samples + 1);
    take_until(reader, words.samples + 1, PATIENCE, taken);
    printf("%ld of %ld handed over after %.1f s, and %ld written later; ", handed.count, words.samples, after, taken.count - handed.count);
    losses.print();
    printf(": %s\n", is_all ? "all" : "not all");
    fflush(stdout);
    std::_Exit(is_all ? 0 : 1);
}
