/* Datagrams in the order of their sequence numbers. */
#include "order.h"

#include <string.h>

static void keep(struct waiting *waiting, struct datagram datagram) {
    waiting->full = true;
    waiting->count = datagram.count;
    waiting->came = datagram.came;
    memcpy(waiting->octets, datagram.octets, datagram.count);
}

static struct datagram kept(const struct waiting *waiting) {
    return (struct datagram){waiting->octets, waiting->count, waiting->came};
}

static struct waiting *place(struct order *order, unsigned ahead) {
    return &order->window[(order->first + ahead) % ORDER_WINDOW];
}

/* The window moves on by one number, which had its turn or is given up. */
static void move(struct order *order, bool had) {
    order->had = order->had << 1 | had;
    order->next = wire_on(order->next, 1);
    order->first = (order->first + 1) % ORDER_WINDOW;
}

/* The next number has its turn, with this datagram. Before the first turn nothing is lost. */
static bool give(struct order *order, struct datagram datagram, bool again) {
    struct turn turn = {datagram, order->given ? order->gap : 0, again, !order->uneven,
                        order->uneven ? WIRE_MOST : order->cells};
    order->given = true;
    order->gap = 0;
    move(order, true);
    return order->turn(&turn, order->user);
}

/* The turn of the next number, whether it waits or is given up. */
static bool step(struct order *order) {
    struct waiting *waiting = place(order, 0);
    if (waiting->full) {
        waiting->full = false;
        order->full--;
        return give(order, kept(waiting), false);
    }
    order->gap++;
    move(order, false);
    return true;
}

/* Those that stand behind the next number without a gap. */
static bool drain(struct order *order) {
    bool good = true;
    while (good && order->full > 0 && place(order, 0)->full) good = step(order);
    return good;
}

static void find_oldest(struct order *order) {
    order->oldest = UINT64_MAX;
    for (unsigned at = 0; at < ORDER_WINDOW; at++)
        if (order->window[at].full && order->window[at].came < order->oldest) order->oldest = order->window[at].came;
}

/* A capture's times may go back. */
static bool waited(const struct order *order, uint64_t now) {
    return now >= order->oldest && now - order->oldest >= ORDER_WAIT;
}

bool order_wait(struct order *order, uint64_t now) {
    bool good = true;
    while (good && order->full > 0 && waited(order, now)) {
        find_oldest(order);
        if (!waited(order, now)) break;
        unsigned before = order->full;
        while (good && order->full == before) good = step(order);
        good = good && drain(order);
    }
    return good;
}

static bool all_turns(struct order *order) {
    bool good = true;
    while (good && order->full > 0) good = step(order);
    return good;
}

/* Moves the window on until it has a place for a number. */
static bool make_place(struct order *order, uint16_t sequence) {
    while (wire_ahead(order->next, sequence) >= ORDER_WINDOW && order->full > 0)
        if (!step(order)) return false;
    unsigned ahead = wire_ahead(order->next, sequence);
    if (ahead >= ORDER_WINDOW) { /* none waits, so no place in the window has a number */
        unsigned by = ahead - (ORDER_WINDOW - 1);
        order->gap += by;
        order->had = by < 64 ? order->had << by : 0;
        order->next = wire_on(order->next, by);
    }
    return drain(order);
}

static bool put(struct order *order, uint16_t sequence, struct datagram datagram) {
    if (!make_place(order, sequence)) return false;
    unsigned ahead = wire_ahead(order->next, sequence);
    if (ahead == 0) return give(order, datagram, false) && drain(order);
    struct waiting *waiting = place(order, ahead);
    if (waiting->full) {
        order->repeated++;
        return true;
    }
    keep(waiting, datagram);
    if (order->full == 0 || datagram.came < order->oldest) order->oldest = datagram.came;
    order->full++;
    return true;
}

/* The sender began again with those that are kept, and with this one. */
static bool begin_again(struct order *order, uint16_t sequence, struct datagram datagram) {
    if (!all_turns(order)) return false;
    order->gap = order->had = 0;
    order->next = wire_on(sequence, WIRE_NUMBERS - (ORDER_AGAIN - 1));
    order->repeated -= order->behind_repeated;
    order->late -= order->behind_count - order->behind_repeated;
    order->behind_count = 0;
    for (unsigned at = 0; at < ORDER_AGAIN - 1; at++)
        if (!give(order, kept(&order->behind[at]), at == 0)) return false;
    return give(order, datagram, false);
}

/* Its number had its turn before, or was given up. */
static bool take_behind(struct order *order, uint16_t sequence, struct datagram datagram) {
    unsigned by = wire_ahead(sequence, order->next);
    bool repeated = by <= 64 && (order->had >> (by - 1) & 1) == 1;
    if (order->behind_count > 0 && wire_on(order->behind_number, 1) != sequence) order->behind_count = 0;
    if (order->behind_count == ORDER_AGAIN - 1) return begin_again(order, sequence, datagram);
    if (order->behind_count == 0) order->behind_repeated = 0;
    keep(&order->behind[order->behind_count++], datagram);
    order->behind_number = sequence;
    order->behind_repeated += repeated;
    *(repeated ? &order->repeated : &order->late) += 1;
    return true;
}

/* One alone isn't believed; with its successor both are. */
static bool take_far(struct order *order, uint16_t sequence, struct datagram datagram) {
    if (order->far.full && wire_on(order->far_number, 1) == sequence) {
        order->far.full = false;
        order->disbelieved--;
        return put(order, order->far_number, kept(&order->far)) && put(order, sequence, datagram);
    }
    keep(&order->far, datagram);
    order->far_number = sequence;
    order->disbelieved++;
    return true;
}

bool order_take(struct order *order, uint16_t sequence, struct datagram datagram) {
    unsigned cells = wire_cells(datagram.count);
    if (order->cells != 0 && order->cells != cells) order->uneven = true;
    order->cells = cells;
    if (!order->started) {
        order->started = true;
        order->next = wire_on(sequence, WIRE_NUMBERS - ORDER_WINDOW / 2);
    }
    unsigned ahead = wire_ahead(order->next, sequence);
    if (ahead > WIRE_NUMBERS / 2) return take_behind(order, sequence, datagram);
    order->behind_count = 0;
    if (ahead >= ORDER_FAR) return take_far(order, sequence, datagram);
    order->far.full = false;
    return put(order, sequence, datagram);
}

bool order_end(struct order *order) {
    return all_turns(order);
}
