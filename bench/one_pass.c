// The bytes of one worker's replies, in one pass over the input and without what only several
// workers need: for `bench/run` only.
//
//     one_pass < input
//
// One thread, no phases, no history, no numbers, no options: as many users and categories as the
// loads have, worker 0, plain lines and names in quotes without quotes. It does each record as it
// is read, 256 KiB at a time, and writes 64 KiB at a time. Numbers that may be long are read eight
// digits at a time, as a little-endian machine can, and the last field of a record ends its line.
#define _GNU_SOURCE
#include <stdint.h>
#include <stdio.h>
#include <stdlib.h>
#include <string.h>
#include <unistd.h>

enum { READ = 1 << 18, WRITE = 1 << 16, LONGEST_REPLY = 1024, LONGEST_NAME = 32 };
enum { USERS = 1000, CATEGORIES = 100, SHOWN = 10 };

typedef struct {
    uint64_t amount, time;
    uint32_t serial, bidder;
} Bid;

typedef struct {
    uint64_t start, closes, bids;
    uint32_t seller, category, left, shown;
    Bid top[SHOWN];
    uint8_t name_length;
    char name[LONGEST_NAME];
} Item;

typedef struct {
    uint64_t time;
    uint32_t serial;
} Entry;

static struct {
    int64_t rating;
    uint64_t comments;
} users[USERS];

static struct {
    uint32_t shown;
    Entry latest[SHOWN];
} categories[CATEGORIES];

static Item *items;
static uint32_t item_count, item_room, bid_count, comment_count, purchase_count, next_index;
static char written[WRITE];
static size_t written_length;

static void stop(int status, const char *words) {
    fprintf(stderr, "one_pass: %s\n", words);
    exit(status);
}

static const char pairs[] =
    "0001020304050607080910111213141516171819202122232425262728293031323334353637383940414243444546474849"
    "5051525354555657585960616263646566676869707172737475767778798081828384858687888990919293949596979899";

// So many bytes are copied of each number and name, since a copy of any fixed length takes few
// instructions.
enum { LONGEST_NUMBER = 20 };

static inline char *put_number(char *to, uint64_t value) {
    char digits[2 * LONGEST_NUMBER];
    int first = LONGEST_NUMBER;
    for (; value >= 100; value /= 100)
        memcpy(digits + (first -= 2), pairs + 2 * (value % 100), 2);
    if (value >= 10)
        memcpy(digits + (first -= 2), pairs + 2 * value, 2);
    else
        digits[--first] = '0' + value;
    memcpy(to, digits + first, LONGEST_NUMBER);
    return to + (LONGEST_NUMBER - first);
}

static inline char *put_words(char *to, const char *words, size_t length) {
    memcpy(to, words, length);
    return to + length;
}
#define PUT(to, words) put_words(to, words, sizeof words - 1)

// The number that begins here; afterwards it is behind what ends that.
static inline uint64_t number(const char **at) {
    const char *from = *at;
    uint64_t value = 0;
    for (unsigned digit; (digit = (unsigned char)*from - '0') <= 9; from++)
        value = value * 10 + digit;
    *at = from + 1;
    return value;
}

// The number of eight digits, of which the first is in the lowest byte: made of pairs, of fours,
// and then of eight.
static inline uint64_t of_eight(uint64_t digits) {
    digits = digits * (256 * 10 + 1) >> 8;
    digits = (digits & 0x00FF00FF00FF00FF) * (65536 * 100 + 1) >> 16;
    return (digits & 0x0000FFFF0000FFFF) * ((10000ul << 32) + 1) >> 32;
}

// The same, for numbers that may be long.
static inline uint64_t long_number(const char **at) {
    static const uint64_t powers[] = {1, 10, 100, 1000, 10000, 100000, 1000000, 10000000};
    uint64_t value = 0, bytes;
    for (const char *from = *at;; from += sizeof bytes) {
        memcpy(&bytes, from, sizeof bytes);
        uint64_t digits = bytes ^ 0x3030303030303030;
        // The highest bit of each byte that is no digit; only of those behind the first one it may
        // be wrong.
        uint64_t others = ((digits + 0x7676767676767676) | digits) & 0x8080808080808080;
        if (others) {
            unsigned count = __builtin_ctzll(others) / 8;
            *at = from + count + 1;
            return value * powers[count] + of_eight(digits << 8 * (7 - count) << 8);
        }
        value = value * 100000000 + of_eight(digits);
    }
}

static void write_out(void) {
    for (size_t done = 0; done < written_length;) {
        ssize_t count = write(1, written + done, written_length - done);
        if (count <= 0)
            stop(4, "output cannot be written");
        done += count;
    }
    written_length = 0;
}

static inline int is_less(const Bid *one, uint64_t amount, uint64_t time) {
    return one->amount < amount || (one->amount == amount && one->time <= time);
}

static inline void enter(Item *item, Bid bid) {
    unsigned place = item->shown;
    if (place == SHOWN) {
        if (!is_less(&item->top[SHOWN - 1], bid.amount, bid.time))
            return;
        place--;
    } else {
        item->shown++;
    }
    for (; place > 0 && is_less(&item->top[place - 1], bid.amount, bid.time); place--)
        item->top[place] = item->top[place - 1];
    item->top[place] = bid;
}

static inline Item *item_of(const char **at) {
    uint32_t worker = number(at), serial = number(at);
    return worker == 0 && serial < item_count ? items + serial : NULL;
}

#define REFUSED(to, reason) PUT(to, "refused " reason)
#define NO_SUCH_USER "1 NoSuchUser"
#define NO_SUCH_CATEGORY "2 NoSuchCategory"
#define NO_SUCH_ITEM "3 NoSuchItem"

static inline char *bid(const char **at, char *to) {
    uint32_t bidder = number(at);
    Item *item = item_of(at);
    uint64_t amount = long_number(at), time = long_number(at);
    if (bidder >= USERS)
        return REFUSED(to, NO_SUCH_USER);
    if (!item)
        return REFUSED(to, NO_SUCH_ITEM);
    if (amount < item->start)
        return REFUSED(to, "4 BelowStart");
    if (time >= item->closes)
        return REFUSED(to, "5 Closed");
    if (item->left == 0)
        return REFUSED(to, "6 SoldOut");
    item->bids++;
    enter(item, (Bid){amount, time, bid_count, bidder});
    return put_number(PUT(to, "bid 0."), bid_count++);
}

static inline Item *new_item(void) {
    if (item_count == item_room) {
        item_room = item_room ? 2 * item_room : 1024;
        if (!(items = realloc(items, item_room * sizeof *items)))
            stop(2, "no memory");
    }
    Item *item = items + item_count;
    memset(item, 0, sizeof *item);
    return item;
}

static void enter_latest(uint32_t category, Entry entry) {
    Entry *latest = categories[category].latest;
    unsigned place = categories[category].shown;
    if (place < SHOWN)
        categories[category].shown++;
    else if (entry.time < latest[--place].time)
        return;
    for (; place > 0 && latest[place - 1].time <= entry.time; place--)
        latest[place] = latest[place - 1];
    latest[place] = entry;
}

static inline char *store_item(const char **at, char *to) {
    Item *item = new_item();
    item->seller = number(at);
    item->category = number(at);
    int is_quoted = **at == '"';
    const char *name = *at + is_quoted, *end = strchr(name, is_quoted ? '"' : ',');
    if (!end || end - name > LONGEST_NAME)
        stop(2, "not a name");
    item->name_length = end - name;
    memcpy(item->name, name, item->name_length);
    *at = end + is_quoted + 1;
    item->start = long_number(at);
    item->closes = long_number(at);
    uint64_t time = long_number(at);
    item->left = (*at)[-1] == ',' ? number(at) : 1;
    if (item->seller >= USERS)
        return REFUSED(to, NO_SUCH_USER);
    if (item->category >= CATEGORIES)
        return REFUSED(to, NO_SUCH_CATEGORY);
    enter_latest(item->category, (Entry){time, item_count});
    return put_number(PUT(to, "item 0."), item_count++);
}

static inline char *comment(const char **at, char *to) {
    uint32_t author = number(at), about = number(at);
    Item *item = item_of(at);
    int is_negative = **at == '-', stars = (*at)[is_negative] - '0';
    *at += is_negative + 2;
    if (author >= USERS || about >= USERS)
        return REFUSED(to, NO_SUCH_USER);
    if (!item)
        return REFUSED(to, NO_SUCH_ITEM);
    users[about].rating += is_negative ? -stars : stars;
    users[about].comments++;
    return put_number(PUT(to, "comment 0."), comment_count++);
}

static inline char *buy(const char **at, char *to) {
    uint32_t buyer = number(at);
    Item *item = item_of(at);
    uint64_t quantity = number(at), time = long_number(at);
    if (buyer >= USERS)
        return REFUSED(to, NO_SUCH_USER);
    if (!item)
        return REFUSED(to, NO_SUCH_ITEM);
    if (time >= item->closes)
        return REFUSED(to, "5 Closed");
    if (quantity > item->left)
        return REFUSED(to, "7 NotEnough");
    item->left -= quantity;
    return put_number(PUT(to, "buynow 0."), purchase_count++);
}

static inline char *view_item(const char **at, char *to) {
    Item *item = item_of(at);
    if (!item)
        return REFUSED(to, NO_SUCH_ITEM);
    to = put_number(PUT(to, "viewitem seller="), item->seller);
    to = put_number(PUT(to, " category="), item->category);
    to = put_number(PUT(to, " start="), item->start);
    to = put_number(PUT(to, " closes="), item->closes);
    if (item->bids) {
        to = put_number(PUT(to, " highest="), item->top[0].amount);
        to = put_number(PUT(to, " bidder="), item->top[0].bidder);
    } else {
        to = PUT(to, " highest=- bidder=-");
    }
    to = put_number(PUT(to, " bids="), item->bids);
    to = put_number(PUT(to, " left="), item->left);
    to = PUT(to, " name=");
    memcpy(to, item->name, sizeof item->name);
    return to + item->name_length;
}

static inline char *view_bids(const char **at, char *to) {
    Item *item = item_of(at);
    if (!item)
        return REFUSED(to, NO_SUCH_ITEM);
    to = PUT(to, "bids");
    for (Bid *entry = item->top; entry < item->top + item->shown; entry++) {
        to = put_number(PUT(to, " "), entry->amount);
        to = put_number(PUT(to, ":"), entry->time);
        to = put_number(PUT(to, ":"), entry->bidder);
        to = put_number(PUT(to, ":0."), entry->serial);
    }
    return to;
}

static inline char *view_category(const char **at, char *to) {
    uint32_t category = number(at);
    if (category >= CATEGORIES)
        return REFUSED(to, NO_SUCH_CATEGORY);
    to = PUT(to, "latest");
    for (unsigned place = 0; place < categories[category].shown; place++) {
        to = put_number(PUT(to, " "), categories[category].latest[place].time);
        to = put_number(PUT(to, ":0."), categories[category].latest[place].serial);
    }
    return to;
}

static inline char *view_user(const char **at, char *to) {
    uint32_t user = number(at);
    if (user >= USERS)
        return REFUSED(to, NO_SUCH_USER);
    int64_t rating = users[user].rating;
    to = rating < 0 ? put_number(PUT(to, "user rating=-"), -rating)
                    : put_number(PUT(to, "user rating="), rating);
    return put_number(PUT(to, " comments="), users[user].comments);
}

#define IF_KIND(kind, act) \
    if (!memcmp(*at, kind ",", sizeof kind)) { \
        *at += sizeof kind; \
        return act(at, to); \
    }

// Does the record that begins at its kind; afterwards the next line is reached.
static inline char *perform(const char **at, char *to) {
    IF_KIND("bid", bid)
    IF_KIND("viewitem", view_item)
    IF_KIND("viewbids", view_bids)
    IF_KIND("viewuser", view_user)
    IF_KIND("viewcategory", view_category)
    IF_KIND("comment", comment)
    IF_KIND("item", store_item)
    IF_KIND("buynow", buy)
    stop(2, "a record of no kind");
    return to;
}

// A line of worker 0, and where the next one begins. A row has no reply.
static inline const char *take(const char *line) {
    if (line[0] != '0' || line[1] != ',')
        stop(2, "a record of another worker");
    const char *at = line + 2;
    if (*at == '+') {
        char none[LONGEST_REPLY];
        at++;
        perform(&at, none);
        return at;
    }
    if (written_length > WRITE - LONGEST_REPLY)
        write_out();
    char *to = put_number(PUT(written + written_length, "0,"), next_index++);
    *to++ = ',';
    to = perform(&at, to);
    *to++ = '\n';
    written_length = to - written;
    return at;
}

int main(void) {
    // The zeros behind the last byte end each comparison and number.
    static char in[READ + 16];
    size_t held = 0;
    for (;;) {
        ssize_t count = read(0, in + held, READ - held);
        if (count < 0)
            stop(2, "input cannot be read");
        if (count == 0)
            break;
        const char *end = memrchr(in, '\n', held + count), *line = in;
        held += count;
        if (!end) {
            if (held == READ)
                stop(2, "a line is too long");
            continue;
        }
        while (line <= end)
            line = take(line);
        if (line != end + 1)
            stop(2, "a record with fields of another kind");
        held -= line - in;
        memmove(in, line, held);
    }
    if (held)
        stop(2, "the last line has no end");
    write_out();
    return 0;
}
