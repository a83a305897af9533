// What the programs that write and read on Fast DDS share: a sample, participants on loopback that may lose packets, and numbers of a command line.
#ifndef FAST_HPP
#define FAST_HPP

#include <fastdds/dds/domain/DomainParticipant.hpp>
#include <fastdds/dds/domain/DomainParticipantFactory.hpp>
#include <fastdds/dds/publisher/DataWriter.hpp>
#include <fastdds/dds/publisher/Publisher.hpp>
#include <fastdds/dds/subscriber/DataReader.hpp>
#include <fastdds/dds/subscriber/SampleInfo.hpp>
#include <fastdds/dds/subscriber/Subscriber.hpp>
#include <fastdds/dds/topic/TopicDataType.hpp>
#include <fastdds/dds/topic/TypeSupport.hpp>
#include <fastdds/rtps/transport/test_UDPv4TransportDescriptor.h>
#include <fastrtps/xmlparser/XMLProfileManager.h>

#include <cerrno>
#include <chrono>
#include <cstdio>
#include <cstdlib>
#include <cstring>
#include <functional>
#include <memory>
#include <thread>

namespace fast {

using namespace eprosima::fastdds::dds;
using eprosima::fastdds::rtps::test_UDPv4TransportDescriptor;
using eprosima::fastrtps::rtps::InstanceHandle_t;
using eprosima::fastrtps::rtps::SerializedPayload_t;
using eprosima::fastrtps::types::ReturnCode_t;
using Clock = std::chrono::steady_clock;

struct Sample {
    long number;
    long long written;
};

class SampleType : public TopicDataType {
public:
    SampleType()
    {
        setName("fast::Sample");
        m_typeSize = sizeof(Sample) + 4;
        m_isGetKeyDefined = false;
    }

    bool serialize(void *data, SerializedPayload_t *to) override
    {
        static const unsigned char LITTLE_ENDIAN_PLAIN[4] = {0, 1, 0, 0};
        memcpy(to->data, LITTLE_ENDIAN_PLAIN, sizeof LITTLE_ENDIAN_PLAIN);
        memcpy(to->data + sizeof LITTLE_ENDIAN_PLAIN, data, sizeof(Sample));
        to->encapsulation = CDR_LE;
        to->length = m_typeSize;
        return true;
    }

    bool deserialize(SerializedPayload_t *from, void *data) override
    {
        if (from->length < m_typeSize) {
            return false;
        }
        memcpy(data, from->data + 4, sizeof(Sample));
        return true;
    }

    std::function<uint32_t()> getSerializedSizeProvider(void *) override
    {
        return [this] { return m_typeSize; };
    }

    void *createData() override
    {
        return new Sample();
    }

    void deleteData(void *data) override
    {
        delete static_cast<Sample *>(data);
    }

    bool getKey(void *, InstanceHandle_t *, bool) override
    {
        return false;
    }
};

[[noreturn]] inline void stop(int status, const char *why, const char *what)
{
    fprintf(stderr, "%s: %s%s\n", program_invocation_short_name, why, what);
    std::_Exit(status);
}

template <typename Made> Made *need(Made *made, const char *what)
{
    if (made == nullptr) {
        stop(3, "no ", what);
    }
    return made;
}

// How a participant sends: over loopback alone. The caller says which packets get lost.
inline std::shared_ptr<test_UDPv4TransportDescriptor> loopback()
{
    auto transport = std::make_shared<test_UDPv4TransportDescriptor>();
    transport->interfaceWhiteList.push_back("127.0.0.1");
    return transport;
}

// A participant that sends in this way, with the topic. Nothing goes to another one in its process but by packets.
inline Topic *open_topic(long domain, const std::shared_ptr<test_UDPv4TransportDescriptor> &transport, DomainParticipant **participant)
{
    eprosima::fastrtps::LibrarySettingsAttributes settings;
    settings.intraprocess_delivery = eprosima::fastrtps::INTRAPROCESS_OFF;
    eprosima::fastrtps::xmlparser::XMLProfileManager::library_settings(settings);
    DomainParticipantQos qos = PARTICIPANT_QOS_DEFAULT;
    qos.transport().use_builtin_transports = false;
    qos.transport().user_transports.push_back(transport);
    *participant = need(DomainParticipantFactory::get_instance()->create_participant(static_cast<uint32_t>(domain), qos), "participant");
    TypeSupport type(new SampleType());
    type.register_type(*participant);
    return need((*participant)->create_topic("samples", type.get_type_name(), TOPIC_QOS_DEFAULT), "topic");
}

inline void await_match(DataWriter *writer, DataReader *reader)
{
    const Clock::time_point limit = Clock::now() + std::chrono::seconds(60);
    PublicationMatchedStatus written;
    SubscriptionMatchedStatus read;
    do {
        if (Clock::now() > limit) {
            stop(3, "no match", " within 60 s");
        }
        std::this_thread::sleep_for(std::chrono::milliseconds(10));
        writer->get_publication_matched_status(written);
        reader->get_subscription_matched_status(read);
    } while (written.current_count < 1 || read.current_count < 1);
}

inline long number(const char *word, long least, long most)
{
    char *end;
    errno = 0;
    const long found = strtol(word, &end, 10);
    if (*word == '\0' || *end != '\0' || errno != 0 || found < least || found > most) {
        fprintf(stderr, "%s: %s is no number from %ld to %ld\n", program_invocation_short_name, word, least, most);
        std::_Exit(4);
    }
    return found;
}

} // namespace fast

#endif
