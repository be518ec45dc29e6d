/* Two engines of Qpid Proton, joined in memory, whose instructions tools/bench counts beside ours:
 *
 *     engines connections TIMES                      so many connections, each opened and closed before the next
 *     engines sessions TIMES                         so many sessions of one connection, each begun and ended
 *     engines links TIMES                            so many links of one session, each attached and detached
 *     engines settled SIZE CREDIT AT_ONCE TIMES      so many messages of one link, of which so many are sent at once
 *     engines unsettled SIZE CREDIT AT_ONCE TIMES    the same, each accepted and settled, then settled by its sender
 *
 * An end is asked for bytes only where it has some, and hears of its peer by events. Links have no address, tags have
 * eight bytes, and credit is given anew where half is used up. Where anything isn't as expected, it ends with 1. */
#include <proton/connection_driver.h>
#include <proton/engine.h>
#include <stdint.h>
#include <stdio.h>
#include <stdlib.h>
#include <string.h>

/* The end that opens, begins, attaches and sends, and the end that answers. */
static pn_connection_driver_t ends[2], *const first = &ends[0], *const second = &ends[1];

/* The messages that are sent. No frame and no message is larger. */
enum { LARGEST = 65536 };
static bool is_settled;
static int credit;
static size_t size;
static char sent[LARGEST], received[LARGEST];

static void expect(bool is_so, const char *otherwise)
{
    if (!is_so) {
        fprintf(stderr, "engines: %s\n", otherwise);
        exit(1);
    }
}

/* Hands over all that the other end says, takes the events, and answers what the last one of this type is about. */
static void *hear(pn_connection_driver_t *end, pn_event_type_t type)
{
    pn_connection_driver_t *from = end == first ? second : first;
    pn_bytes_t said = pn_connection_driver_write_buffer(from);
    while (said.size > 0) {
        pn_rwbytes_t room = pn_connection_driver_read_buffer(end);
        size_t count = said.size < room.size ? said.size : room.size;
        expect(count > 0, "an end hears no more");
        memcpy(room.start, said.start, count);
        pn_connection_driver_read_done(end, count);
        said = pn_connection_driver_write_done(from, count);
    }
    void *about = NULL;
    for (pn_event_t *event; (event = pn_connection_driver_next_event(end));)
        about = pn_event_type(event) == type ? pn_event_context(event) : about;
    expect(about, "an event doesn't come");
    return about;
}

static void open_both(void)
{
    for (int it = 0; it < 2; it++) {
        expect(pn_connection_driver_init(&ends[it], NULL, NULL) == 0, "there is no memory for an engine");
        pn_connection_set_container(ends[it].connection, it ? "b" : "a");
        pn_transport_set_max_frame(ends[it].transport, LARGEST);
        expect(pn_connection_driver_bind(&ends[it]) == 0, "an engine isn't bound");
        pn_connection_open(ends[it].connection);
    }
    hear(second, PN_CONNECTION_REMOTE_OPEN);
    hear(first, PN_CONNECTION_REMOTE_OPEN);
}

static void close_both(void)
{
    pn_connection_close(first->connection);
    hear(second, PN_CONNECTION_REMOTE_CLOSE);
    pn_connection_close(second->connection);
    hear(first, PN_CONNECTION_REMOTE_CLOSE);
    pn_connection_driver_destroy(first);
    pn_connection_driver_destroy(second);
}

static pn_session_t *begin(void)
{
    pn_session_t *session = pn_session(first->connection);
    pn_session_open(session);
    pn_session_open(hear(second, PN_SESSION_REMOTE_OPEN));
    expect(hear(first, PN_SESSION_REMOTE_OPEN) == session, "another session is begun");
    return session;
}

static void end(pn_session_t *session)
{
    pn_session_close(session);
    pn_session_t *other = hear(second, PN_SESSION_REMOTE_CLOSE);
    pn_session_close(other);
    expect(hear(first, PN_SESSION_REMOTE_CLOSE) == session, "another session is ended");
    pn_session_free(session);
    pn_session_free(other);
}

/* Attaches a link, and answers its other end. */
static pn_link_t *attach(pn_link_t *link)
{
    pn_link_open(link);
    pn_link_t *other = hear(second, PN_LINK_REMOTE_OPEN);
    pn_link_open(other);
    expect(hear(first, PN_LINK_REMOTE_OPEN) == link, "another link is attached");
    return other;
}

static void detach(pn_link_t *link, pn_link_t *other)
{
    pn_link_detach(link);
    expect(hear(second, PN_LINK_REMOTE_DETACH) == other, "another link is detached");
    pn_link_detach(other);
    expect(hear(first, PN_LINK_REMOTE_DETACH) == link, "another link is detached");
    pn_link_free(link);
    pn_link_free(other);
}

static void send(pn_link_t *sender, uint64_t number)
{
    expect(pn_link_credit(sender) > 0, "there is no credit");
    pn_delivery_t *delivery = pn_delivery(sender, pn_dtag((const char *)&number, sizeof number));
    expect(pn_link_send(sender, sent, size) == (ssize_t)size && pn_link_advance(sender), "a message isn't taken");
    if (is_settled)
        pn_delivery_settle(delivery);
}

static void receive(pn_link_t *receiver, uint64_t number)
{
    pn_delivery_t *delivery = pn_link_current(receiver);
    expect(delivery && !pn_delivery_partial(delivery), "a message hasn't come whole");
    expect(pn_delivery_pending(delivery) == size, "a message has another size");
    pn_delivery_tag_t tag = pn_delivery_tag(delivery);
    expect(tag.size == sizeof number && !memcmp(tag.start, &number, sizeof number), "a message has another tag");
    expect(pn_delivery_settled(delivery) == is_settled, "a message isn't settled as it was sent");
    expect(pn_link_recv(receiver, received, size) == (ssize_t)size, "a message isn't handed out");
    expect(pn_link_advance(receiver), "the receiver stays at a message");
    if (!is_settled)
        pn_delivery_update(delivery, PN_ACCEPTED);
    pn_delivery_settle(delivery);
}

/* Sends messages, so many at once, and has the sender hear what the receiver says of them. */
static void pass(pn_link_t *sender, pn_link_t *receiver, uint64_t at_once, uint64_t times)
{
    pn_link_flow(receiver, credit);
    hear(first, PN_LINK_FLOW);
    for (uint64_t number = 0; number < times; number += at_once) {
        for (uint64_t it = 0; it < at_once; it++)
            send(sender, number + it);
        hear(second, PN_DELIVERY);
        for (uint64_t it = 0; it < at_once; it++)
            receive(receiver, number + it);
        int used = credit - pn_link_credit(receiver);
        if (used >= credit / 2)
            pn_link_flow(receiver, used);
        if (used >= credit / 2 || !is_settled)
            hear(first, is_settled ? PN_LINK_FLOW : PN_DELIVERY);
        for (uint64_t it = 0; it < at_once && !is_settled; it++) {
            pn_delivery_t *oldest = pn_unsettled_head(sender);
            expect(oldest && pn_delivery_settled(oldest), "a message isn't settled");
            expect(pn_delivery_remote_state(oldest) == PN_ACCEPTED, "a message isn't accepted");
            pn_delivery_settle(oldest);
        }
    }
    expect(!memcmp(received, sent, size), "a message has other bytes");
}

int main(int count, char **words)
{
    const char *shape = count == 3 || count == 6 ? words[1] : "";
    uint64_t done = 0, times = strtoull(words[count - 1], NULL, 10);
    is_settled = !strcmp(shape, "settled");
    for (; !strcmp(shape, "connections") && done < times; done++) {
        open_both();
        close_both();
    }
    open_both();
    pn_session_t *session = begin();
    for (; !strcmp(shape, "sessions") && done < times; done++)
        end(begin());
    for (; !strcmp(shape, "links") && done < times; done++) {
        pn_link_t *link = pn_sender(session, "link");
        detach(link, attach(link));
    }
    if (count == 6 && (is_settled || !strcmp(shape, "unsettled"))) {
        pn_link_t *sender = pn_sender(session, "link"), *receiver = attach(sender);
        size = strtoull(words[2], NULL, 10);
        expect(size <= LARGEST, "a message is too large");
        memset(sent, 'x', size);
        credit = atoi(words[3]);
        pass(sender, receiver, strtoull(words[4], NULL, 10), times);
        detach(sender, receiver);
        done = times;
    }
    end(session);
    close_both();
    expect(times > 0 && done == times, "SHAPE [SIZE CREDIT AT_ONCE] TIMES");
    return 0;
}
