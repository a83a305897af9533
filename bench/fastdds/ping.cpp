// The deployment of examples/ping on Fast DDS, in one process and one domain, by one thread, which takes what has come and never waits: the first application
// writes three samples and one more for each answer that it takes, the second answers each sample that it takes. It prints how many samples a second were
// written and taken, and the processor's part, as bench/cyclone/ping.c does.
//
//   ping N
//
// To build it, with Debian's libfastrtps-dev:
// c++ -O2 -o ping ping.cpp -lfastrtps -lfastcdr
#include <fastdds/dds/domain/DomainParticipant.hpp>
#include <fastdds/dds/domain/DomainParticipantFactory.hpp>
#include <fastdds/dds/publisher/DataWriter.hpp>
#include <fastdds/dds/publisher/Publisher.hpp>
#include <fastdds/dds/subscriber/DataReader.hpp>
#include <fastdds/dds/subscriber/SampleInfo.hpp>
#include <fastdds/dds/subscriber/Subscriber.hpp>
#include <fastdds/dds/topic/TopicDataType.hpp>
#include <fastdds/dds/topic/TypeSupport.hpp>

#include <chrono>
#include <cstdio>
#include <cstdlib>
#include <cstring>
#include <ctime>
#include <functional>
#include <string>
#include <thread>

using namespace eprosima::fastdds::dds;
using eprosima::fastrtps::rtps::InstanceHandle_t;
using eprosima::fastrtps::rtps::SerializedPayload_t;
using eprosima::fastrtps::types::ReturnCode_t;

namespace {

constexpr int FIRST = 3;
constexpr uint32_t DOMAIN_NUMBER = 77;

struct Number {
    char key[32];
    unsigned char payload[32];
};

// A key of 32 bytes and 32 bytes of data, which travel as they are.
class NumberType : public TopicDataType {
public:
    NumberType()
    {
        setName("ping::Number");
        m_typeSize = sizeof(Number) + 4;
        m_isGetKeyDefined = true;
    }

    bool serialize(void *data, SerializedPayload_t *to) override
    {
        static const unsigned char LITTLE_ENDIAN_PLAIN[4] = {0, 1, 0, 0};
        memcpy(to->data, LITTLE_ENDIAN_PLAIN, 4);
        memcpy(to->data + 4, data, sizeof(Number));
        to->encapsulation = CDR_LE;
        to->length = m_typeSize;
        return true;
    }

    bool deserialize(SerializedPayload_t *from, void *data) override
    {
        if (from->length < m_typeSize) {
            return false;
        }
        memcpy(data, from->data + 4, sizeof(Number));
        return true;
    }

    std::function<uint32_t()> getSerializedSizeProvider(void *) override
    {
        return [this] { return m_typeSize; };
    }

    void *createData() override
    {
        return new Number();
    }

    void deleteData(void *data) override
    {
        delete static_cast<Number *>(data);
    }

    bool getKey(void *data, InstanceHandle_t *handle, bool) override
    {
        memcpy(handle->value, static_cast<Number *>(data)->key, 16);
        return true;
    }
};

struct Side {
    DataWriter *writer;
    DataReader *reader;
    long writes, takes, limit;
};

template <typename Made> Made *need(Made *made, const char *what)
{
    if (made == nullptr) {
        fprintf(stderr, "no %s\n", what);
        exit(1);
    }
    return made;
}

Side open_side(long limit, const char *writes, const char *reads)
{
    DomainParticipant *participant =
        need(DomainParticipantFactory::get_instance()->create_participant(DOMAIN_NUMBER, PARTICIPANT_QOS_DEFAULT), "participant");
    TypeSupport type(new NumberType());
    type.register_type(participant);
    Topic *out = need(participant->create_topic(writes, type.get_type_name(), TOPIC_QOS_DEFAULT), "topic");
    Topic *in = need(participant->create_topic(reads, type.get_type_name(), TOPIC_QOS_DEFAULT), "topic");
    DataWriterQos writer = DATAWRITER_QOS_DEFAULT;
    writer.reliability().kind = RELIABLE_RELIABILITY_QOS;
    writer.history().kind = KEEP_ALL_HISTORY_QOS;
    DataReaderQos reader = DATAREADER_QOS_DEFAULT;
    reader.reliability().kind = RELIABLE_RELIABILITY_QOS;
    reader.history().kind = KEEP_ALL_HISTORY_QOS;
    reader.resource_limits().max_samples_per_instance = FIRST;
    Publisher *publisher = need(participant->create_publisher(PUBLISHER_QOS_DEFAULT), "publisher");
    Subscriber *subscriber = need(participant->create_subscriber(SUBSCRIBER_QOS_DEFAULT), "subscriber");
    return {need(publisher->create_datawriter(out, writer), "writer"), need(subscriber->create_datareader(in, reader), "reader"), 0, 0, limit};
}

void await_match(const Side &side)
{
    PublicationMatchedStatus writer;
    SubscriptionMatchedStatus reader;
    do {
        std::this_thread::sleep_for(std::chrono::milliseconds(10));
        side.writer->get_publication_matched_status(writer);
        side.reader->get_subscription_matched_status(reader);
    } while (writer.current_count < 1 || reader.current_count < 1);
}

void write_one(Side &side)
{
    Number sample = {};
    strcpy(sample.key, "k");
    memcpy(sample.payload, &side.writes, sizeof side.writes);
    if (!side.writer->write(&sample)) {
        fprintf(stderr, "a write failed\n");
        exit(1);
    }
    side.writes++;
}

void take_ready(Side &side)
{
    Number sample;
    SampleInfo info;
    while (side.reader->take_next_sample(&sample, &info) == ReturnCode_t::RETCODE_OK) {
        if (!info.valid_data) {
            continue;
        }
        side.takes++;
        if (side.writes < side.limit) {
            write_one(side);
        }
    }
}

double processor_seconds()
{
    timespec now;
    clock_gettime(CLOCK_PROCESS_CPUTIME_ID, &now);
    return now.tv_sec + now.tv_nsec / 1e9;
}

} // namespace

int main(int count, char **words)
{
    if (count != 2 || atol(words[1]) < FIRST) {
        fprintf(stderr, "ping N, at least %d\n", FIRST);
        return 4;
    }
    Side one = open_side(atol(words[1]), "ping", "pong"), two = open_side(atol(words[1]), "pong", "ping");
    await_match(one);
    await_match(two);
    const auto began = std::chrono::steady_clock::now();
    const double used = processor_seconds();
    for (int i = 0; i < FIRST; i++) {
        write_one(one);
    }
    while (one.takes < one.limit) {
        take_ready(two);
        take_ready(one);
    }
    const double took = std::chrono::duration<double>(std::chrono::steady_clock::now() - began).count();
    const long samples = one.takes + two.takes;
    printf("%ld samples in %.2f s: %.0f a second, %.2f processors\n", samples, took, samples / took, (processor_seconds() - used) / took);
    fflush(stdout);
    _Exit(0);
}
