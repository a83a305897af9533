/*
 * A write that Cyclone DDS refuses, and that is taken back: refused DEPLOYMENT TAG, for a1 of PING. A child process reads what it writes, and is stopped while the
 * guard still has permits, so that nothing is acknowledged and a write runs into its max_blocking_time. Prints what the guard answers, how many samples were
 * written, and how many the child took. Status: 0, 3 no guard or no DDS, 4 usage.
 */
#include "ping.h"

#include <signal.h>
#include <sys/wait.h>
#include <unistd.h>

/* as ping_configure, and a writer blocks as soon as something isn't acknowledged */
static void configure(const char *tag)
{
    char text[1536];
    (void)snprintf(text, sizeof text,
                   "<CycloneDDS><Domain Id=\"any\"><General><Interfaces><NetworkInterface name=\"lo\"/></Interfaces><AllowMulticast>false</AllowMulticast></General>"
                   "<Discovery><Tag>%s</Tag><ParticipantIndex>auto</ParticipantIndex><MaxAutoParticipantIndex>40</MaxAutoParticipantIndex>"
                   "<Peers><Peer Address=\"127.0.0.1\"/></Peers><SPDPInterval>250 ms</SPDPInterval></Discovery>"
                   "<Internal><Watermarks><WhcLow>0 B</WhcLow><WhcHigh>1 B</WhcHigh><WhcHighInit>1 B</WhcHighInit><WhcAdaptive>false</WhcAdaptive></Watermarks></Internal>"
                   "</Domain></CycloneDDS>",
                   tag);
    (void)setenv("CYCLONEDDS_URI", text, 1);
}

static dds_entity_t topic_of(dds_entity_t participant) { return dds_create_topic(participant, &ddscheck_Sample_desc, "ping", NULL, NULL); }

/* Takes samples until there are three, or none comes for five seconds, and prints how many there were. It stops itself once a writer is there. */
static int read_samples(void)
{
    dds_entity_t participant = dds_create_participant(0, NULL, NULL);
    dds_qos_t *qos = ping_qos(0);
    dds_entity_t reader = dds_create_reader(participant, topic_of(participant), qos, NULL);
    dds_subscription_matched_status_t matched = {0, 0, 0, 0, 0};
    ddscheck_Sample sample;
    void *samples[1] = {&sample};
    dds_sample_info_t info;
    int taken = 0;
    dds_delete_qos(qos);
    for (int at = 0; at < 1000 && matched.current_count == 0; at++) {
        (void)dds_get_subscription_matched_status(reader, &matched);
        dds_sleepfor(DDS_MSECS(10));
    }
    (void)raise(SIGSTOP);
    for (int at = 0; at < 500; at++) {
        if (dds_take(reader, samples, &info, 1, 1) == 1 && info.valid_data) {
            taken++;
            at = 0;
        } else if (taken >= 3 && at > 50) {
            break;
        }
        dds_sleepfor(DDS_MSECS(10));
    }
    printf("%d taken\n", taken);
    return dds_delete(participant) != DDS_RETCODE_OK;
}

/* Writes until Cyclone or the guard refuses, and answers what came last. */
static dds_return_t write_all(ddscheck_dds_end *writer, const ddscheck_Sample *sample, int *written)
{
    dds_return_t answer = ddscheck_dds_write(writer, sample);
    while (answer == DDS_RETCODE_OK) {
        ++*written;
        answer = ddscheck_dds_write(writer, sample);
    }
    return answer;
}

static void print(const char *what, ddscheck_status status) { printf("%s %s\n", what, ddscheck_status_name(status)); }

static int write_samples(const char *deployment, pid_t child)
{
    ddscheck_guard guard = DDSCHECK_GUARD_CLOSED;
    dds_entity_t participant = dds_create_participant(0, NULL, NULL);
    dds_qos_t *qos = ping_qos(0);
    ddscheck_dds_end writer = DDSCHECK_DDS_END(0, ping_key, NULL);
    ddscheck_dds_name end = {"ping_w", &writer};
    ddscheck_dds_difference difference;
    ddscheck_Sample sample;
    int written = 0, status = 0;
    memset(&sample, 0, sizeof sample);
    memcpy(sample.key, "k", 2);
    dds_qset_reliability(qos, DDS_RELIABILITY_RELIABLE, DDS_MSECS(300));
    writer.entity = dds_create_writer(participant, topic_of(participant), qos, NULL);
    dds_delete_qos(qos);
    if (waitpid(child, &status, WUNTRACED) != child || !WIFSTOPPED(status) || ddscheck_dds_open(deployment, "a1", &guard, &end, 1, &difference) != DDSCHECK_OK) {
        return 3;
    }
    printf("%s\n", write_all(&writer, &sample, &written) == DDS_RETCODE_TIMEOUT ? "timeout" : "no timeout");
    print("write", writer.status);
    print("undo", ddscheck_dds_undo_write(&writer, &sample));
    print("undo again", ddscheck_dds_undo_write(&writer, &sample));
    (void)kill(child, SIGCONT);
    (void)dds_wait_for_acks(writer.entity, DDS_SECS(5));
    (void)write_all(&writer, &sample, &written);
    print("write", writer.status);
    printf("%d written\n", written);
    (void)fflush(stdout);
    (void)dds_wait_for_acks(writer.entity, DDS_SECS(5));
    (void)waitpid(child, &status, 0);
    (void)ddscheck_close(&guard);
    return dds_delete(participant) == DDS_RETCODE_OK && WIFEXITED(status) && WEXITSTATUS(status) == 0 ? 0 : 3;
}

int main(int count, char **words)
{
    pid_t child;
    int status;
    if (count != 3) {
        fprintf(stderr, "refused: DEPLOYMENT TAG\n");
        return 4;
    }
    configure(words[2]);
    child = fork();
    if (child == 0) {
        return read_samples();
    }
    status = child < 0 ? 3 : write_samples(words[1], child);
    if (child > 0 && status != 0) {
        (void)kill(child, SIGKILL);
    }
    return status;
}
