/* daemon.c: three sites as three processes that trade updates over UDP on the loopback, as many to a datagram as wait for the same neighbour. The
 * link is bad on purpose: a seeded coin in each sender holds updates back, so that they arrive late and out of order, and drops datagrams, cuts them
 * short and repeats what was in them, and in the last rounds one site is cut off. After them the tables differ. Then each site sends its whole table
 * to the others, and all three tables are equal.
 *
 * Each process keeps a run of its own with three sites: its own table, and for each neighbour what it was told. So every change of its memory is a
 * step of the library or a group absorbed:
 *
 *   publish, withdraw        wg_add, wg_remove at the own site, then wg_send to each neighbour: the update waits in a slot, with its serial
 *   the coin repeats it      wg_again: a second copy waits, with the same serial
 *   it goes out              with the others for that neighbour, as one group: wg_write_group; and wg_deliver each: the neighbour will know this much
 *   the coin drops it        wg_lose each
 *   a datagram comes in      wg_take_in at the own site, one call whatever is in it; a group that was cut short is refused, and nothing of it is taken
 *
 * A group has ids and lengths and nothing else. So a datagram has a few words in front of its group: the sender, how many updates it carries, and the
 * newest serial that the neighbour has with them. How far a neighbour is behind is asked of the sender's run, with wg_behind. There the newest serial
 * heard moves on when an update goes out, since on this link the coin alone loses anything; over a real one a daemon would deliver when the
 * neighbour's word comes back. The receivers keep the newest serial that they saw in a datagram, and it must be the sender's.
 *
 * A lag is about the newest update, not about the tables. 0 says that the last one sent arrived, not that all before it did: between the two sites
 * that are not cut off the lags are small, and some ids differ all the same. And a whole table is a group of no updates: it has no serial, so the
 * repair makes the tables equal and leaves every lag as it was; what ends a lag is the next update that arrives. So the lags are asked for three
 * times: before the repair, after it, and after one more update.
 *
 * The parent only keeps the rounds in step, so that one seed gives one result, and adds up at the end.
 *
 *   daemon [SEED]        ends with status 0 exactly when the tables are equal, every count adds up and no site is behind in the end */
#define _DEFAULT_SOURCE
#include <arpa/inet.h>
#include <inttypes.h>
#include <poll.h>
#include <stdio.h>
#include <stdlib.h>
#include <string.h>
#include <sys/socket.h>
#include <sys/wait.h>
#include <unistd.h>
#include <wiregantry.h>

enum { SITES = 3, CAPACITY = WG_GROUP_ENTRIES, SLOTS = 10, IDS = 48, ROUNDS = 60 }; /* a whole table is one group */
enum { OUTAGE = 6, CUT_OFF = 2 }; /* in so many rounds, the last ones, nothing gets to this site or from it */

#define FIRST 4294967246u /* the first serial of each pair: after 50 updates it starts again at 0 */

static void die(const char *what) {
    perror(what);
    exit(2);
}

/* A step that must be accepted; a refusal here is a fault of this program. */
static void must(uint32_t refusal, const char *step) {
    if (refusal == WG_ACCEPTED) return;
    fprintf(stderr, "daemon: %s: %s\n", step, wg_refusal_text(refusal));
    exit(2);
}

static uint64_t coin_state;

static uint64_t coin(uint64_t sides) {
    uint64_t z = coin_state += UINT64_C(0x9e3779b97f4a7c15);
    z = (z ^ z >> 30) * UINT64_C(0xbf58476d1ce4e5b9);
    z = (z ^ z >> 27) * UINT64_C(0x94d049bb133111eb);
    return (z ^ z >> 31) % sides;
}

/* ---- what a process has ---- */

static uint64_t words[WG_WORDS(SITES, CAPACITY)];
static wg_parcel slots[SLOTS];
static wg_ledger ledger;
static const wg_run run = {words, WG_WORDS(SITES, CAPACITY), slots, SLOTS, &ledger, SITES, CAPACITY};

static uint64_t self;                    /* this process's site */
static int sockets[SITES];               /* each process reads its own and writes from it */
static struct sockaddr_in places[SITES];
static int umpire;                       /* the pipe to the parent */

/* What a process tells its parent. The first counts are its own, kept beside the ledger to compare with it; so are the numbers by neighbour. */
typedef struct {
    uint64_t sends, copies, told, drops, put_off, heard, waiting; /* updates */
    uint64_t groups, group_bytes, cut_out, cut_in, stale;         /* datagrams */
    uint32_t sends_to[SITES], newest_from[SITES], any_from[SITES];
    int32_t lag[SITES]; /* how far each neighbour is behind */
    wg_ledger ledger;
    uint64_t table[2 * CAPACITY];
} account;

static account mine;

static uint64_t *own_table(void) { return words + self * 2 * CAPACITY; }

/* ---- datagrams: the head, and a group behind it ---- */

typedef struct {
    uint32_t sender;
    uint32_t updates; /* none in a whole table, and then there is no serial */
    uint32_t newest;  /* the newest serial that the receiver now has */
} head;

/* Returns the bytes of the group. Cut short, all but the last byte of it go out. */
static size_t tell(uint64_t site, uint32_t updates, const uint64_t *entries, size_t count, int cut_short) {
    head h = {(uint32_t)self, updates, ledger.pairs[self][site].heard};
    uint8_t datagram[sizeof h + WG_GROUP_MAX];
    size_t n, bytes;
    must(wg_write_group(entries, WG_ENTRIES(count), datagram + sizeof h, WG_GROUP_MAX, &n), "write a group");
    memcpy(datagram, &h, sizeof h);
    bytes = sizeof h + n - (cut_short ? 1 : 0);
    if (sendto(sockets[self], datagram, bytes, 0, (struct sockaddr *)&places[site], sizeof places[site]) != (ssize_t)bytes) die("sendto");
    return n;
}

/* Newer means ahead by less than half of all serials. This is the receiver's own count, to hold against the sender's ledger. */
static void note_serial(uint64_t neighbour, uint32_t serial) {
    uint32_t ahead = serial - mine.newest_from[neighbour];
    if (!mine.any_from[neighbour] || (ahead != 0 && ahead < 2147483648u)) mine.newest_from[neighbour] = serial;
    mine.any_from[neighbour] = 1;
}

static void hear(void) {
    head h;
    uint8_t datagram[sizeof h + WG_GROUP_MAX];
    struct pollfd ready = {sockets[self], POLLIN, 0};
    uint64_t rose;
    uint32_t refusal;
    ssize_t bytes;
    if (poll(&ready, 1, 5000) != 1) die("a datagram that was sent did not arrive");
    bytes = recv(sockets[self], datagram, sizeof datagram, 0);
    if (bytes < (ssize_t)sizeof h) die("a datagram of another form");
    memcpy(&h, datagram, sizeof h);
    if (h.sender >= SITES || h.sender == self) die("a datagram of another form");
    refusal = wg_take_in(&run, self, datagram + sizeof h, (size_t)bytes - sizeof h, &rose);
    if (refusal == WG_NO_GROUP) {
        mine.cut_in++;
        return;
    }
    must(refusal, "absorb");
    if (h.updates > 0) note_serial(h.sender, h.newest);
    mine.heard += h.updates;
    mine.stale += rose == 0; /* repeated, overtaken, or known from elsewhere */
}

/* ---- one round ---- */

static void send_to_all(uint64_t id) {
    uint64_t slot, site;
    uint32_t refusal;
    for (site = 0; site < SITES; site++) {
        if (site == self) continue;
        refusal = wg_send(&run, self, site, id, &slot);
        if (refusal == WG_NO_SLOT) mine.put_off++; /* the buffer is full, and the count of it is printed; no serial is used */
        else if (refusal == WG_ACCEPTED) mine.sends++, mine.sends_to[site]++;
        else if (refusal != WG_NOTHING_TO_SEND) must(refusal, "send");
    }
}

static void update(uint64_t id) {
    uint64_t length;
    must(coin(5) < 3 ? wg_add(&run, self, id, &length) : wg_remove(&run, self, id, &length), "add or remove");
    send_to_all(id);
}

/* ROUGH: drops, cuts short, repeats and holds back. CUT: so too, and one site is cut off. LAST: so too, and nothing is held back or repeated any more.
 * FAIR: all arrives. */
enum weather { ROUGH, CUT, LAST, FAIR };

static enum weather weather_of(int round) { return round == ROUNDS ? LAST : round >= ROUNDS - OUTAGE ? CUT : ROUGH; }

/* Which of the updates for a site the link takes now. The others are held back, and later ones overtake them. */
static uint32_t take_some(uint64_t site, enum weather weather, uint64_t taken[SLOTS]) {
    uint32_t n = 0;
    uint64_t slot;
    for (slot = 0; slot < SLOTS; slot++)
        if (slots[slot].length != 0 && slots[slot].site == site && (weather >= LAST || coin(4) > 0)) taken[n++] = slot;
    return n;
}

/* One entry more among rising ones; of two lengths for one id the larger stays. */
static size_t enter(uint64_t *entries, size_t count, uint64_t id, uint64_t length) {
    size_t k = count;
    while (k > 0 && entries[2 * k - 2] > id) k--;
    if (k > 0 && entries[2 * k - 2] == id) {
        if (entries[2 * k - 1] < length) entries[2 * k - 1] = length;
        return count;
    }
    memmove(entries + 2 * k + 2, entries + 2 * k, (count - k) * 16);
    entries[2 * k] = id;
    entries[2 * k + 1] = length;
    return count + 1;
}

/* LOST: nothing arrives. SHORT: what arrives is no group. TWICE: it arrives, and its updates wait once more. */
enum fate { LOST, SHORT, TWICE, ARRIVES };

static enum fate fate_of(uint64_t site, enum weather weather) {
    uint64_t side = coin(100);
    if (weather == FAIR) return ARRIVES;
    if (weather != ROUGH && (site == CUT_OFF || self == CUT_OFF)) return LOST;
    return side < 15 ? LOST : side < 20 ? SHORT : side < 45 && weather < LAST ? TWICE : ARRIVES;
}

/* What the link does with an update that is in the datagram. */
static void travel(uint64_t slot, enum fate fate) {
    uint64_t other, length;
    if (fate == LOST || fate == SHORT) {
        must(wg_lose(&run, slot), "lose");
        mine.drops++;
        return;
    }
    if (fate == TWICE && wg_again(&run, slot, &other) == WG_ACCEPTED) mine.copies++;
    must(wg_deliver(&run, slot, &length), "deliver");
    mine.told++;
}

/* One datagram, where anything waits for the site. */
static void send_out(uint64_t site, enum weather weather, uint64_t sent_to[SITES]) {
    uint64_t taken[SLOTS], entries[WG_ENTRIES(SLOTS)];
    uint32_t updates = take_some(site, weather, taken), k;
    enum fate fate = fate_of(site, weather);
    size_t count = 0, bytes;
    for (k = 0; k < updates; k++) count = enter(entries, count, slots[taken[k]].id, slots[taken[k]].length);
    for (k = 0; k < updates; k++) travel(taken[k], fate);
    if (updates == 0 || fate == LOST) return;
    bytes = tell(site, updates, entries, count, fate == SHORT);
    sent_to[site]++;
    if (fate == SHORT) mine.cut_out++;
    else mine.groups++, mine.group_bytes += bytes;
}

static void talk(int pipe_end, void *what, size_t n, int out) {
    size_t done = 0;
    while (done < n) {
        ssize_t k = out ? write(pipe_end, (char *)what + done, n - done) : read(pipe_end, (char *)what + done, n - done);
        if (k <= 0) die("a process is gone");
        done += (size_t)k;
    }
}

/* Tells the parent what went where, learns how much comes, and takes it in. */
static void listen_up(uint64_t sent_to[SITES]) {
    uint64_t coming;
    talk(umpire, sent_to, SITES * sizeof *sent_to, 1);
    talk(umpire, &coming, sizeof coming, 0);
    while (coming-- > 0) hear();
}

static void one_round(enum weather weather) {
    uint64_t sent_to[SITES] = {0}, k;
    if (weather < LAST)
        for (k = 1 + coin(3); k > 0; k--) update(1 + coin(IDS));
    for (k = 0; k < SITES; k++)
        if (k != self) send_out(k, weather, sent_to);
    listen_up(sent_to);
}

/* All sites publish the same id, which leaves equal tables equal. */
static void one_more_update(void) {
    uint64_t length;
    must(wg_add(&run, self, 1, &length), "add");
    send_to_all(1);
    one_round(FAIR);
}

static void repair(void) {
    uint64_t sent_to[SITES] = {0}, site;
    size_t held = 0;
    while (held < CAPACITY && own_table()[2 * held + 1] != 0) held++;
    for (site = 0; site < SITES; site++) {
        if (site == self) continue;
        tell(site, 0, own_table(), held, 0);
        sent_to[site]++;
    }
    listen_up(sent_to);
}

static void settle(void) {
    uint64_t k, site;
    for (site = 0; site < SITES; site++)
        if (site != self) must(wg_behind(&run, self, site, &mine.lag[site]), "lag");
    mine.ledger = ledger;
    memcpy(mine.table, own_table(), sizeof mine.table);
    for (mine.waiting = 0, k = 0; k < SLOTS; k++) mine.waiting += slots[k].length != 0;
    talk(umpire, &mine, sizeof mine, 1);
}

static void be_site(uint64_t site, int pipe_end, uint64_t seed) {
    int k;
    self = site;
    umpire = pipe_end;
    coin_state = seed * SITES + site;
    must(wg_start(&run, FIRST), "fresh");
    for (k = 0; k <= ROUNDS; k++) one_round(weather_of(k));
    settle();
    repair();
    settle();
    one_more_update();
    settle();
    exit(0);
}

/* ---- the parent ---- */

static int pipes[SITES];
static account accounts[SITES];
static int32_t lags[3][SITES][SITES]; /* before the repair, after it, after one more update; [sender][destination] */

static void keep_step(void) {
    uint64_t sent_to[SITES][SITES], site, k, coming;
    for (site = 0; site < SITES; site++) talk(pipes[site], sent_to[site], sizeof sent_to[site], 0);
    for (site = 0; site < SITES; site++) {
        for (coming = 0, k = 0; k < SITES; k++) coming += sent_to[k][site];
        talk(pipes[site], &coming, sizeof coming, 1);
    }
}

static void collect(int time) {
    int site;
    for (site = 0; site < SITES; site++) {
        talk(pipes[site], &accounts[site], sizeof accounts[site], 0);
        memcpy(lags[time][site], accounts[site].lag, sizeof lags[time][site]);
    }
}

static uint64_t length_in(const uint64_t *table, uint64_t id) {
    int k;
    for (k = 0; k < CAPACITY; k++)
        if (table[2 * k + 1] != 0 && table[2 * k] == id) return table[2 * k + 1];
    return 0;
}

/* Among the first so many sites; the one that is cut off is the last. */
static int ids_that_differ(uint64_t sites) {
    int differ = 0;
    uint64_t id, site;
    for (id = 1; id <= IDS; id++)
        for (site = 1; site < sites; site++)
            if (length_in(accounts[site].table, id) != length_in(accounts[0].table, id)) {
                differ++;
                break;
            }
    return differ;
}

static int tables_equal(void) {
    return memcmp(accounts[0].table, accounts[1].table, sizeof accounts[0].table) == 0 &&
           memcmp(accounts[0].table, accounts[2].table, sizeof accounts[0].table) == 0;
}

/* The ledger against the counts that the process kept itself, and against the rule that nothing goes missing uncounted. */
static int adds_up(const account *a) {
    return a->ledger.sent == a->sends && a->ledger.copied == a->copies && a->ledger.absorbed == a->told && a->ledger.lost == a->drops &&
           a->ledger.sent + a->ledger.copied == a->ledger.absorbed + a->ledger.lost + a->waiting;
}

/* Serials rose by one for each send, the newest one that went out is the newest that came in, and the lag is the distance between the two. */
static int serials_add_up(int from, int to) {
    const wg_pair *p = &accounts[from].ledger.pairs[from][to];
    return p->next == FIRST + accounts[from].sends_to[to] && accounts[to].any_from[from] && p->heard == accounts[to].newest_from[from] &&
           p->heard - (p->next - 1) == (uint32_t)accounts[from].lag[to];
}

/* The repair must leave every lag, and one update that arrives must end it. */
static int judge_lags(void) {
    int from, to, ok = 1;
    for (from = 0; from < SITES; from++)
        for (to = 0; to < SITES; to++) {
            if (from == to) continue;
            printf("site %d behind site %d: %" PRId32 " before the repair, %" PRId32 " after it, %" PRId32 " after one more update; serials %u to %" PRIu32 "\n",
                   to, from, lags[0][from][to], lags[1][from][to], lags[2][from][to], FIRST, accounts[from].ledger.pairs[from][to].next - 1);
            ok = ok && lags[1][from][to] == lags[0][from][to] && lags[2][from][to] == 0 && serials_add_up(from, to);
        }
    printf("%s\n", ok ? "the repair left every lag, since a whole table is no update and has no serial; the next update ended it" : "A LAG IS NOT WHAT IT SHOULD BE");
    return ok;
}

static int judge(int differed, int near, int repaired) {
    int site, ok = 1;
    uint64_t told = 0, heard = 0, groups = 0, bytes = 0, cut_out = 0, cut_in = 0, stale = 0, listed = 0, held = 0, k;
    for (site = 0; site < SITES; site++) {
        const account *a = &accounts[site];
        printf("site=%d sent=%" PRIu64 " copied=%" PRIu64 " absorbed=%" PRIu64 " lost=%" PRIu64 " waiting=%" PRIu64 " put_off=%" PRIu64 "\n", site,
               a->ledger.sent, a->ledger.copied, a->ledger.absorbed, a->ledger.lost, a->waiting, a->put_off);
        ok = ok && adds_up(a);
        told += a->told;
        heard += a->heard;
        groups += a->groups;
        bytes += a->group_bytes;
        cut_out += a->cut_out;
        cut_in += a->cut_in;
        stale += a->stale; /* how many depends on which of two datagrams came first, so the number is not printed */
    }
    for (k = 0; k < CAPACITY; k++) {
        held += accounts[0].table[2 * k + 1] != 0;
        listed += accounts[0].table[2 * k + 1] & 1;
    }
    printf("updates: %" PRIu64 " told, %" PRIu64 " heard, in %" PRIu64 " groups of %" PRIu64 " bytes together; %s brought nothing new\n", told, heard,
           groups, bytes, stale > 0 ? "some" : "none");
    printf("datagrams cut short: %" PRIu64 ", and refused: %" PRIu64 "\n", cut_out, cut_in);
    printf("before the repair %d ids differed, %d of them at the two sites that were not cut off; after it the tables are %s: held=%" PRIu64
           " shown=%" PRIu64 "\n", differed, near, repaired && tables_equal() ? "equal" : "NOT EQUAL", held, listed);
    ok = judge_lags() && ok && told == heard && cut_out == cut_in && repaired && tables_equal();
    printf("%s\n", ok ? "every count adds up" : "SOMETHING DOES NOT ADD UP");
    return ok;
}

static void open_sockets(void) {
    int site;
    for (site = 0; site < SITES; site++) {
        socklen_t size = sizeof places[site];
        sockets[site] = socket(AF_INET, SOCK_DGRAM, 0);
        places[site].sin_family = AF_INET;
        places[site].sin_addr.s_addr = htonl(INADDR_LOOPBACK);
        if (sockets[site] < 0 || bind(sockets[site], (struct sockaddr *)&places[site], size) != 0) die("bind");
        if (getsockname(sockets[site], (struct sockaddr *)&places[site], &size) != 0) die("getsockname");
    }
}

int main(int n_args, char **args) {
    uint64_t seed = n_args > 1 ? strtoull(args[1], 0, 10) : 2022;
    int site, k, ends[2], differed, near, repaired, status, ok;
    open_sockets();
    for (site = 0; site < SITES; site++) {
        if (socketpair(AF_UNIX, SOCK_STREAM, 0, ends) != 0) die("socketpair");
        switch (fork()) {
        case -1: die("fork"); break;
        case 0: close(ends[0]); be_site((uint64_t)site, ends[1], seed); break;
        default: close(ends[1]); pipes[site] = ends[0];
        }
    }
    for (k = 0; k <= ROUNDS; k++) keep_step();
    collect(0);
    differed = ids_that_differ(SITES);
    near = ids_that_differ(CUT_OFF);
    keep_step();
    collect(1);
    repaired = tables_equal();
    keep_step();
    collect(2);
    ok = judge(differed, near, repaired);
    for (site = 0; site < SITES; site++)
        if (wait(&status) < 0 || status != 0) ok = 0;
    return ok ? 0 : 1;
}
