// A writer by the clock and a reader that takes as late as it may, on Fast DDS, in one process with two participants: what one lost packet costs there.
//
//   fast-paced DOMAIN SAMPLES LOSS HEARTBEAT WITHIN DEPTH
//
// The writer writes every 10 ms, so many samples, is RELIABLE and KEEP_LAST with this depth, and sends a heartbeat every HEARTBEAT ms. LOSS percent of all packets are
// dropped. The reader is RELIABLE and as deep, and takes each sample WITHIN ms after its write, less a twentieth.
// It prints a line. Status: 0 each sample was taken in time and none is missing, 1 else, 3 a fault, 4 of usage.
#include "fast.hpp"

#include <algorithm>

using namespace fast;

namespace {

constexpr std::chrono::milliseconds PERIOD(10);
// how long nothing may come before the reader ends
constexpr std::chrono::seconds PATIENCE(10);

struct Words {
    long domain, samples, loss, heartbeat, within, depth;
};

// The topic at a participant whose packets get lost.
Topic *open_lossy_topic(const Words &words, DomainParticipant **participant)
{
    auto transport = loopback();
    transport->percentageOfMessagesToDrop = static_cast<uint8_t>(words.loss);
    return open_topic(words.domain, transport, participant);
}

DataWriter *open_writer(const Words &words)
{
    DomainParticipant *participant;
    Topic *topic = open_lossy_topic(words, &participant);
    DataWriterQos qos = DATAWRITER_QOS_DEFAULT;
    qos.durability().kind = VOLATILE_DURABILITY_QOS;
    qos.history().depth = static_cast<int32_t>(words.depth);
    qos.reliable_writer_qos().times.heartbeatPeriod = eprosima::fastrtps::Duration_t(static_cast<long double>(words.heartbeat) / 1e3L);
    qos.data_sharing().off();
    return need(need(participant->create_publisher(PUBLISHER_QOS_DEFAULT), "publisher")->create_datawriter(topic, qos), "writer");
}

DataReader *open_reader(const Words &words)
{
    DomainParticipant *participant;
    Topic *topic = open_lossy_topic(words, &participant);
    DataReaderQos qos = DATAREADER_QOS_DEFAULT;
    qos.reliability().kind = RELIABLE_RELIABILITY_QOS;
    qos.history().depth = static_cast<int32_t>(words.depth);
    qos.data_sharing().off();
    return need(need(participant->create_subscriber(SUBSCRIBER_QOS_DEFAULT), "subscriber")->create_datareader(topic, qos), "reader");
}

void write_all(DataWriter *writer, long samples)
{
    Clock::time_point due = Clock::now();
    for (long number = 1; number <= samples; number++, due += PERIOD) {
        std::this_thread::sleep_until(due);
        Sample sample = {number, Clock::now().time_since_epoch().count()};
        writer->write(&sample);
    }
}

struct Found {
    long taken, late, missing, last;
    double oldest, came;
};

// How old a sample is, in milliseconds, by the time of its write that goes along with it.
double age_of(const SampleInfo &info)
{
    const auto now = std::chrono::system_clock::now().time_since_epoch();
    return static_cast<double>(std::chrono::duration_cast<std::chrono::nanoseconds>(now).count() - info.source_timestamp.to_ns()) / 1e6;
}

// Takes one sample. False where there is none: one that came may wait for another one before it.
bool take_one(DataReader *reader, double within, Found &found)
{
    Sample sample = {};
    SampleInfo info;
    if (reader->take_next_sample(&sample, &info) != ReturnCode_t::RETCODE_OK || !info.valid_data) {
        return false;
    }
    const double age = static_cast<double>(Clock::now().time_since_epoch().count() - sample.written) / 1e6;
    found.taken++;
    found.late += age > within;
    found.missing += sample.number - found.last - 1;
    found.last = sample.number;
    found.oldest = std::max(found.oldest, age);
    found.came = std::max(found.came, static_cast<double>(info.reception_timestamp.to_ns() - info.source_timestamp.to_ns()) / 1e6);
    return true;
}

Found take_all(DataReader *reader, const Words &words)
{
    Found found = {};
    const double within = static_cast<double>(words.within);
    Clock::time_point heard = Clock::now();
    while (found.last < words.samples && Clock::now() - heard < PATIENCE) {
        SampleInfo info;
        const bool is_there = reader->get_first_untaken_info(&info) == ReturnCode_t::RETCODE_OK;
        if (is_there && age_of(info) >= within - within / 20 && take_one(reader, within, found)) {
            heard = Clock::now();
        } else {
            std::this_thread::sleep_for(std::chrono::microseconds(200));
        }
    }
    // what nobody took because it never came
    found.missing += words.samples - found.last;
    return found;
}

} // namespace

int main(int count, char **word)
{
    if (count != 7) {
        fprintf(stderr, "fast-paced DOMAIN SAMPLES LOSS HEARTBEAT WITHIN DEPTH\n");
        return 4;
    }
    const Words words = {number(word[1], 0, 230), number(word[2], 1, 100000), number(word[3], 0, 90), number(word[4], 1, 60000), number(word[5], 1, 60000),
                         number(word[6], 1, 5000)};
    DataWriter *writer = open_writer(words);
    DataReader *reader = open_reader(words);
    await_match(writer, reader);
    std::thread writing(write_all, writer, words.samples);
    const Found found = take_all(reader, words);
    writing.join();
    const bool is_kept = found.late == 0 && found.missing == 0;
    printf("%ld taken, after at most %.1f ms, %ld of them late, and %ld never; a packet came after at most %.1f ms: %s\n", found.taken, found.oldest, found.late,
           found.missing, found.came, is_kept ? "kept" : "broken");
    fflush(stdout);
    std::_Exit(is_kept ? 0 : 1);
}
