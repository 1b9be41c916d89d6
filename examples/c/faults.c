/* Both ends under faults: random jobs, frames that are lost, cut or damaged, answers that are lost or
 * damaged, false acknowledgements, and restarts of either end. It counts the words that the host calls
 * confirmed, and those of them that the converter doesn't hold, which the guarantees rule out while it
 * didn't restart. Damage here changes one byte, which the PEC always betrays. Half of the jobs are carried out by
 * pm_host_run, half by calls of their own. */
#include "pmhost.h"
#include "pmpart.h"
#include <stdio.h>
#include <stdlib.h>
#include <string.h>

static const uint8_t codes[] = {PM_OPERATION, PM_VOUT_COMMAND, PM_VOUT_MAX, PM_VOUT_MARGIN_HIGH,
                                PM_VOUT_MARGIN_LOW, PM_VOUT_MIN};
enum { OUTPUTS = 2, CODES = sizeof codes };

static uint64_t seed = 1;

static unsigned draw(unsigned below) {
    seed ^= seed << 13;
    seed ^= seed >> 7;
    seed ^= seed << 17;
    return (unsigned)((seed >> 11) % below);
}

static pm_part new_part(void) {
    pm_part part;
    pm_part_config config;
    memset(&config, 0, sizeof config);
    config.address = 0x58;
    config.outputs = OUTPUTS;
    config.m = 1;
    for (int i = 0; i < OUTPUTS; i++) {
        pm_part_output output = {0x14, 0, 0x80, 0x1000, 0x4000, 0x1100, 0x0F00, 0x0000};
        config.starts[i] = output;
    }
    memset(&part, 0, sizeof part);
    pm_part_new(&part, &config);
    return part;
}

static size_t damage(uint8_t *bytes, size_t count) {
    if (draw(2))
        return draw((unsigned)count);
    unsigned place = draw((unsigned)count);
    bytes[place] ^= (uint8_t)(1 + draw(255));
    return count;
}

/* What becomes of the frame that is to be sent. */
static pm_step exchange(pm_host *host, pm_part *part) {
    pm_sending frame;
    pm_part_reply reply = {0, 0, {0}};
    pm_host_frame(host, &frame);
    size_t count = frame.length;
    unsigned fate = draw(8);
    if (fate == 0)
        count = damage(frame.bytes, count);
    int heard = fate != 1;
    if (frame.kind == PM_WRITE) {
        int taken = heard && pm_part_hear(part, frame.bytes, count, 0, &reply) == PM_HEARD_TAKEN;
        return pm_host_write_ended(host, (uint8_t)(fate == 2 ? !taken : taken));
    }
    if (heard)
        pm_part_hear(part, frame.bytes, count, 1, &reply);
    count = reply.length;
    if (fate == 3 && count)
        count = damage(reply.bytes, count);
    return pm_host_read_ended(host, reply.bytes, fate == 4 ? 0 : count);
}

/* The same by pm_host_run's two calls, on whose bus the read address is the host's own. */
static uint8_t put(void *part, const uint8_t *bytes, uint64_t count) {
    pm_part_reply reply = {0, 0, {0}};
    uint8_t sent[16];
    unsigned fate = draw(8);
    memcpy(sent, bytes, (size_t)count);
    if (fate == 0)
        count = damage(sent, (size_t)count);
    int taken = fate != 1 && pm_part_hear((pm_part *)part, sent, count, 0, &reply) == PM_HEARD_TAKEN;
    if (fate == 2 ? !taken : taken)
        return PM_ACKED;
    return fate == 1 ? PM_UNHEARD : PM_NOT_ACKED;
}

static uint64_t ask(void *part, const uint8_t *request, uint64_t count, uint8_t *answer, uint64_t room) {
    pm_part_reply reply = {0, 0, {0}};
    uint8_t sent[16];
    unsigned fate = draw(8);
    memcpy(sent, request, (size_t)count);
    if (fate == 0)
        count = damage(sent, (size_t)count);
    if (fate != 1)
        pm_part_hear((pm_part *)part, sent, count, 1, &reply);
    size_t came = reply.length ? (size_t)reply.length - 1 : 0;
    if (fate == 3 && came)
        came = damage(reply.bytes + 1, came);
    memcpy(answer, reply.bytes + 1, came < room ? came : (size_t)room);
    return fate == 4 ? 0 : fate == 5 ? room + 1 : came;
}

/* Begins a job: 0, or why it is refused. */
static uint8_t begin(pm_host *host) {
    uint8_t output = (uint8_t)draw(OUTPUTS), code = codes[draw(CODES)];
    switch (draw(10)) {
    case 0: return pm_host_check(host, output, code);
    case 1: return pm_host_learn(host, output);
    case 2: return pm_host_clear(host, output);
    case 3: return pm_host_store(host);
    case 4: return pm_host_restore(host);
    case 5: return pm_host_order_microvolts(host, output, code, (int64_t)draw(4000000));
    default: return pm_host_order(host, output, code, code == PM_OPERATION ? 0x80 : (uint16_t)(0x1000 + draw(0x400)));
    }
}

int main(int count, char **words) {
    long jobs = count > 1 ? atol(words[1]) : 20000;
    long confirmed = 0, wrong = 0, unlisted = 0, done = 0, ended = 0, refused = 0;
    pm_host host;
    pm_part part = new_part();
    int restarted = 0;
    if (pm_part_size() != sizeof part || pm_host_size() != sizeof host)
        return 1;
    if (pm_host_new(&host, 0x58, OUTPUTS, 3) != PM_OK)
        return 1;
    for (uint8_t output = 0; output < OUTPUTS; output++)
        if (pm_host_no_limits(&host, output) != PM_OK)
            return 1;
    for (long job = 0; job < jobs; job++) {
        pm_sending frame;
        if (begin(&host) != PM_OK) {
            refused++;
        } else if (draw(2)) {
            pm_step step = pm_host_run(&host, put, ask, &part);
            done += step.kind == PM_DONE;
            ended++;
        }
        for (pm_host_frame(&host, &frame); frame.kind != PM_NOTHING; pm_host_frame(&host, &frame)) {
            pm_step step = exchange(&host, &part);
            done += step.kind == PM_DONE;
            ended += step.kind != PM_NEXT;
        }
        for (uint8_t output = 0; output < OUTPUTS; output++)
            for (int i = 0; i < CODES; i++) {
                pm_standing standing;
                pm_words words_held;
                uint16_t held;
                pm_host_confirmed_word(&host, output, codes[i], &standing);
                pm_host_possible_words(&host, output, codes[i], &words_held);
                pm_part_word(&part, output, codes[i], &held);
                int listed = words_held.count == 0;
                for (int at = 0; at < words_held.count; at++)
                    listed |= words_held.words[at] == held;
                confirmed += standing.is_confirmed == 1;
                wrong += standing.is_confirmed == 1 && standing.word != held && !restarted;
                unlisted += !listed && !restarted;
            }
        if (draw(200) == 0) {
            pm_part_restart(&part);
            restarted = 1;
        }
        if (restarted && draw(20) == 0) {
            pm_host_restart(&host);
            restarted = 0;
        }
    }
    printf("%ld jobs, %ld refused, %ld ended, %ld done; %ld confirmed, %ld wrong, %ld not listed\n", jobs, refused, ended,
           done, confirmed, wrong, unlisted);
    return wrong || unlisted || !done || refused + ended != jobs;
}
