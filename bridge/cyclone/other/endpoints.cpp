// Announces writers and readers by Fast DDS and prints which of them it says have matched: a system of another vendor, for the test of capture.
//
//   fast-endpoints DOMAIN SECONDS FILE
//
// A line of the file is `writer NAME TOPIC TYPE` or `reader NAME TOPIC TYPE`, and then policies as `FIELD=VALUE` in the words of deployment files, with commas
// between partitions. In names `%` and two digits of base 16 stand for a byte. Writers are at one participant and readers at another one. After so many seconds it prints `match WRITER READER` for each pair that its
// writers were told of. It stands on the RTPS layer of Fast DDS, which announces policies that its upper layer refuses. Status: 0, 2 a bad line, 3 a fault.
#include <fastdds/rtps/RTPSDomain.h>
#include <fastdds/rtps/history/ReaderHistory.h>
#include <fastdds/rtps/history/WriterHistory.h>
#include <fastdds/rtps/participant/RTPSParticipant.h>
#include <fastdds/rtps/reader/ReaderListener.h>
#include <fastdds/rtps/reader/RTPSReader.h>
#include <fastdds/rtps/transport/UDPv4TransportDescriptor.h>
#include <fastdds/rtps/writer/RTPSWriter.h>
#include <fastdds/rtps/writer/WriterListener.h>
#include <fastrtps/attributes/TopicAttributes.h>
#include <fastrtps/qos/ReaderQos.h>
#include <fastrtps/qos/WriterQos.h>
#include <fastrtps/utils/IPLocator.h>

#include <chrono>
#include <cstdlib>
#include <fstream>
#include <iostream>
#include <map>
#include <memory>
#include <mutex>
#include <set>
#include <sstream>
#include <string>
#include <thread>
#include <vector>

using namespace eprosima::fastrtps;
using namespace eprosima::fastrtps::rtps;

namespace {

[[noreturn]] void stop(int status, const std::string &why)
{
    std::cerr << "fast-endpoints: " << why << std::endl;
    std::_Exit(status);
}

// A name with the bytes that it stands for.
std::string unescaped(const std::string &word)
{
    std::string found;
    for (std::size_t at = 0; at < word.size(); at++) {
        if (word[at] == '%' && at + 2 < word.size()) {
            found += static_cast<char>(std::stoi(word.substr(at + 1, 2), nullptr, 16));
            at += 2;
        } else {
            found += word[at];
        }
    }
    return found;
}

// What a word stands for.
template <typename Kind> Kind one_of(const std::string &word, const std::map<std::string, Kind> &words)
{
    const auto found = words.find(word);
    if (found == words.end()) {
        stop(2, "no value of its policy: " + word);
    }
    return found->second;
}

Duration_t duration(const std::string &word)
{
    if (word == "infinite") {
        return c_TimeInfinite;
    }
    const long long nanoseconds = std::stoll(word);
    return Duration_t(static_cast<int32_t>(nanoseconds / 1000000000), static_cast<uint32_t>(nanoseconds % 1000000000));
}

// Sets a policy of a writer or a reader.
template <typename Qos> void set(Qos &qos, const std::string &field, const std::string &word)
{
    if (field == "durability") {
        qos.m_durability.kind = one_of<DurabilityQosPolicyKind>(word, {{"VOLATILE", VOLATILE_DURABILITY_QOS},
                                                                      {"TRANSIENT_LOCAL", TRANSIENT_LOCAL_DURABILITY_QOS},
                                                                      {"TRANSIENT", TRANSIENT_DURABILITY_QOS},
                                                                      {"PERSISTENT", PERSISTENT_DURABILITY_QOS}});
    } else if (field == "access_scope") {
        qos.m_presentation.access_scope = one_of<PresentationQosPolicyAccessScopeKind>(
            word, {{"INSTANCE", INSTANCE_PRESENTATION_QOS}, {"TOPIC", TOPIC_PRESENTATION_QOS}, {"GROUP", GROUP_PRESENTATION_QOS}});
    } else if (field == "coherent") {
        qos.m_presentation.coherent_access = word == "true";
    } else if (field == "ordered") {
        qos.m_presentation.ordered_access = word == "true";
    } else if (field == "deadline") {
        qos.m_deadline.period = duration(word);
    } else if (field == "latency_budget") {
        qos.m_latencyBudget.duration = duration(word);
    } else if (field == "ownership") {
        qos.m_ownership.kind = one_of<OwnershipQosPolicyKind>(word, {{"SHARED", SHARED_OWNERSHIP_QOS}, {"EXCLUSIVE", EXCLUSIVE_OWNERSHIP_QOS}});
    } else if (field == "liveliness") {
        qos.m_liveliness.kind = one_of<LivelinessQosPolicyKind>(word, {{"AUTOMATIC", AUTOMATIC_LIVELINESS_QOS},
                                                                      {"MANUAL_BY_PARTICIPANT", MANUAL_BY_PARTICIPANT_LIVELINESS_QOS},
                                                                      {"MANUAL_BY_TOPIC", MANUAL_BY_TOPIC_LIVELINESS_QOS}});
    } else if (field == "lease") {
        qos.m_liveliness.lease_duration = duration(word);
    } else if (field == "reliability") {
        qos.m_reliability.kind =
            one_of<ReliabilityQosPolicyKind>(word, {{"BEST_EFFORT", BEST_EFFORT_RELIABILITY_QOS}, {"RELIABLE", RELIABLE_RELIABILITY_QOS}});
    } else if (field == "destination_order") {
        qos.m_destinationOrder.kind =
            one_of<DestinationOrderQosPolicyKind>(word, {{"BY_RECEPTION_TIMESTAMP", BY_RECEPTION_TIMESTAMP_DESTINATIONORDER_QOS},
                                                         {"BY_SOURCE_TIMESTAMP", BY_SOURCE_TIMESTAMP_DESTINATIONORDER_QOS}});
    } else if (field == "partitions") {
        std::istringstream names(word);
        for (std::string name; std::getline(names, name, ',');) {
            qos.m_partition.push_back(unescaped(name).c_str());
        }
    } else {
        stop(2, "no policy: " + field);
    }
}

// The names of readers by their keys, and the keys that each writer has matched.
std::mutex lock;
std::map<GUID_t, std::string> readers;
std::map<std::string, std::set<GUID_t>> matched;

class Matched : public WriterListener {
public:
    explicit Matched(std::string name) : name_(std::move(name))
    {
    }

    void onWriterMatched(RTPSWriter *, MatchingInfo &info) override
    {
        const std::lock_guard<std::mutex> guard(lock);
        if (info.status == MATCHED_MATCHING) {
            matched[name_].insert(info.remoteEndpointGuid);
        } else {
            matched[name_].erase(info.remoteEndpointGuid);
        }
    }

private:
    std::string name_;
};

// A participant on loopback, which looks for others at the first numbers of participants.
RTPSParticipant *participant(uint32_t domain, const char *name)
{
    RTPSParticipantAttributes attributes;
    attributes.setName(name);
    attributes.useBuiltinTransports = false;
    auto udp = std::make_shared<eprosima::fastdds::rtps::UDPv4TransportDescriptor>();
    udp->interfaceWhiteList.emplace_back("127.0.0.1");
    attributes.userTransports.push_back(udp);
    Locator_t locator;
    IPLocator::setIPv4(locator, 127, 0, 0, 1);
    for (uint32_t number = 0; number < 8; number++) {
        locator.port = 7400 + 250 * domain + 10 + 2 * number;
        attributes.builtin.initialPeersList.push_back(locator);
    }
    RTPSParticipant *found = RTPSDomain::createParticipant(domain, attributes);
    if (found == nullptr) {
        stop(3, "no participant");
    }
    return found;
}

// The RTPS layer keeps nothing for readers that come later, so all endpoints are volatile there, whatever they announce.
void add_writer(RTPSParticipant *at, const std::string &name, const TopicAttributes &topic, const WriterQos &qos)
{
    WriterAttributes attributes;
    attributes.endpoint.reliabilityKind = qos.m_reliability.kind == RELIABLE_RELIABILITY_QOS ? RELIABLE : BEST_EFFORT;
    auto *history = new WriterHistory(HistoryAttributes());
    RTPSWriter *writer = RTPSDomain::createRTPSWriter(at, attributes, history, new Matched(name));
    if (writer == nullptr || !at->registerWriter(writer, topic, qos)) {
        stop(3, "no writer " + name);
    }
}

void add_reader(RTPSParticipant *at, const std::string &name, const TopicAttributes &topic, const ReaderQos &qos)
{
    ReaderAttributes attributes;
    attributes.endpoint.reliabilityKind = qos.m_reliability.kind == RELIABLE_RELIABILITY_QOS ? RELIABLE : BEST_EFFORT;
    auto *history = new ReaderHistory(HistoryAttributes());
    RTPSReader *reader = RTPSDomain::createRTPSReader(at, attributes, history, new ReaderListener());
    if (reader == nullptr) {
        stop(3, "no reader " + name);
    }
    {
        const std::lock_guard<std::mutex> guard(lock);
        readers[reader->getGuid()] = name;
    }
    if (!at->registerReader(reader, topic, qos)) {
        stop(3, "no reader " + name);
    }
}

template <typename Qos> Qos qos_of(std::istringstream &words)
{
    Qos qos;
    for (std::string word; words >> word;) {
        const auto at = word.find('=');
        if (at == std::string::npos) {
            stop(2, "no policy with a value: " + word);
        }
        set(qos, word.substr(0, at), word.substr(at + 1));
    }
    return qos;
}

void add(const std::string &line, RTPSParticipant *writes, RTPSParticipant *reads)
{
    std::istringstream words(line);
    std::string kind, name, topic, type;
    words >> kind >> name >> topic >> type;
    TopicAttributes attributes(unescaped(topic).c_str(), unescaped(type).c_str(), NO_KEY);
    if (kind == "writer") {
        add_writer(writes, name, attributes, qos_of<WriterQos>(words));
    } else if (kind == "reader") {
        add_reader(reads, name, attributes, qos_of<ReaderQos>(words));
    } else {
        stop(2, "neither a writer nor a reader: " + line);
    }
}

} // namespace

int main(int count, char **words)
{
    if (count != 4) {
        stop(2, "usage: fast-endpoints DOMAIN SECONDS FILE");
    }
    const auto domain = static_cast<uint32_t>(std::stoul(words[1]));
    RTPSParticipant *writes = participant(domain, "fast writes"), *reads = participant(domain, "fast_reads");
    std::ifstream file(words[3]);
    for (std::string line; std::getline(file, line);) {
        add(line, writes, reads);
    }
    std::this_thread::sleep_for(std::chrono::duration<double>(std::stod(words[2])));
    const std::lock_guard<std::mutex> guard(lock);
    for (const auto &[writer, keys] : matched) {
        for (const auto &key : keys) {
            std::cout << "match " << writer << ' ' << readers[key] << '\n';
        }
    }
    std::cout.flush();
    std::_Exit(std::cout.good() ? 0 : 3);
}
