// A plain log of maps, to measure the program against: hash maps in memory, and files that are only appended to.
//   floor FOLDER play [apart] < SCRIPT > REPLIES    plays a script, with the same replies as the program
//   floor FOLDER load [apart] > TEXT                prints the maps of the log, as the program's `dump` does
// There is one log for all partitions, or with `apart` one for each, so that a sync is of its partition's log alone. A
// command that changes a map is one write(2), a sync one fdatasync(2), of a log of its own only where something was
// appended to it. It keeps no promise beyond that: nothing in a log is checked but lengths. Any failure ends it with
// status 1.
#include <fcntl.h>
#include <stdarg.h>
#include <stdbool.h>
#include <stdint.h>
#include <stdio.h>
#include <stdlib.h>
#include <string.h>
#include <unistd.h>

enum { PARTITIONS = 64, GATHERED = 65536, PIECE = 1 << 20, MOST_KEY = 65535, MOST_VALUE = 1 << 20 };

static void stop(const char *form, ...) {
    va_list words;
    va_start(words, form);
    fputs("floor: ", stderr);
    vfprintf(stderr, form, words);
    fputc('\n', stderr);
    va_end(words);
    exit(1);
}

static void *grown(void *block, size_t length) {
    block = realloc(block, length);
    if (block == NULL) {
        stop("no memory");
    }
    return block;
}

// ---- bytes, and the output

struct bytes {
    const char *at;
    size_t length;
};

static char gathered[GATHERED];
static size_t gathered_length;

static void write_all(int file, const char *at, size_t length) {
    while (length > 0) {
        ssize_t written = write(file, at, length);
        if (written <= 0) {
            stop("a write failed");
        }
        at += written;
        length -= (size_t)written;
    }
}

static void flush(void) {
    write_all(STDOUT_FILENO, gathered, gathered_length);
    gathered_length = 0;
}

static void print_bytes(const char *at, size_t length) {
    if (length > GATHERED - gathered_length) {
        flush();
    }
    if (length > GATHERED) {
        write_all(STDOUT_FILENO, at, length);
        return;
    }
    memcpy(gathered + gathered_length, at, length);
    gathered_length += length;
}

static void print(const char *text) { print_bytes(text, strlen(text)); }

static void print_number(uint64_t number) {
    char digits[20];
    size_t at = sizeof digits;
    do {
        digits[--at] = (char)('0' + number % 10);
        number /= 10;
    } while (number > 0);
    print_bytes(digits + at, sizeof digits - at);
}

static bool is_plain(unsigned char byte) { return byte > 32 && byte < 127 && byte != '%'; }

// The text of a key or a value.
static void print_text(struct bytes it) {
    if (it.length == 0) {
        print("%");
    }
    size_t done = 0;
    for (size_t i = 0; i < it.length; i++) {
        unsigned char byte = (unsigned char)it.at[i];
        if (!is_plain(byte)) {
            char escaped[3] = {'%', "0123456789ABCDEF"[byte >> 4], "0123456789ABCDEF"[byte & 15]};
            print_bytes(it.at + done, i - done);
            print_bytes(escaped, sizeof escaped);
            done = i + 1;
        }
    }
    print_bytes(it.at + done, it.length - done);
}

// ---- the maps: one table a partition, by open addressing

struct item {
    uint64_t map;
    uint32_t key_length;
    uint32_t value_length;
    char bytes[];  // the key, then the value
};

struct slot {
    uint64_t hash;
    struct item *item;
};

struct table {
    struct slot *slots;
    size_t size;  // a power of two, or 0
    size_t count;
};

static struct table tables[PARTITIONS];

static struct bytes key_of(const struct item *item) { return (struct bytes){item->bytes, item->key_length}; }

static struct bytes value_of(const struct item *item) {
    return (struct bytes){item->bytes + item->key_length, item->value_length};
}

static uint64_t hash_of(uint64_t map, struct bytes key) {
    uint64_t hash = 14695981039346656037u ^ map;
    for (size_t i = 0; i < key.length; i++) {
        hash = (hash ^ (unsigned char)key.at[i]) * 1099511628211u;
    }
    hash ^= hash >> 32;
    hash *= 0x9E3779B97F4A7C15u;
    return hash ^ hash >> 29;
}

// The slot of a key, or the empty one where it would go. The table is not full.
static struct slot *find(struct table *table, uint64_t hash, uint64_t map, struct bytes key) {
    for (size_t i = hash & (table->size - 1);; i = (i + 1) & (table->size - 1)) {
        struct slot *slot = &table->slots[i];
        struct item *item = slot->item;
        if (item == NULL || (slot->hash == hash && item->map == map && item->key_length == key.length &&
                             memcmp(item->bytes, key.at, key.length) == 0)) {
            return slot;
        }
    }
}

static void grow(struct table *table) {
    struct table wider = {NULL, table->size == 0 ? 1024 : 2 * table->size, table->count};
    wider.slots = grown(NULL, wider.size * sizeof *wider.slots);
    memset(wider.slots, 0, wider.size * sizeof *wider.slots);
    for (size_t i = 0; i < table->size; i++) {
        if (table->slots[i].item != NULL) {
            size_t j = table->slots[i].hash & (wider.size - 1);
            while (wider.slots[j].item != NULL) {
                j = (j + 1) & (wider.size - 1);
            }
            wider.slots[j] = table->slots[i];
        }
    }
    free(table->slots);
    *table = wider;
}

static struct item *get(struct table *table, uint64_t map, struct bytes key) {
    return table->size == 0 ? NULL : find(table, hash_of(map, key), map, key)->item;
}

// Puts an item, and gives the one before, which the caller frees.
static struct item *put(struct table *table, uint64_t map, struct bytes key, struct bytes value) {
    if (4 * (table->count + 1) > 3 * table->size) {
        grow(table);
    }
    struct item *item = grown(NULL, sizeof *item + key.length + value.length);
    item->map = map;
    item->key_length = (uint32_t)key.length;
    item->value_length = (uint32_t)value.length;
    memcpy(item->bytes, key.at, key.length);
    memcpy(item->bytes + key.length, value.at, value.length);
    uint64_t hash = hash_of(map, key);
    struct slot *slot = find(table, hash, map, key);
    struct item *before = slot->item;
    table->count += before == NULL;
    *slot = (struct slot){hash, item};
    return before;
}

// Takes an item out and gives it; the caller frees it. Later items of its run move up, so that no gap is left.
static struct item *take(struct table *table, uint64_t map, struct bytes key) {
    if (table->size == 0) {
        return NULL;
    }
    struct slot *slot = find(table, hash_of(map, key), map, key);
    struct item *item = slot->item;
    if (item == NULL) {
        return NULL;
    }
    size_t mask = table->size - 1;
    size_t gap = (size_t)(slot - table->slots);
    for (size_t i = (gap + 1) & mask; table->slots[i].item != NULL; i = (i + 1) & mask) {
        size_t home = table->slots[i].hash & mask;
        if (((i - home) & mask) >= ((i - gap) & mask)) {
            table->slots[gap] = table->slots[i];
            gap = i;
        }
    }
    table->slots[gap].item = NULL;
    table->count--;
    return item;
}

// Takes all items of a map out, and tells how many there were.
static uint64_t clear(struct table *table, uint64_t map) {
    struct table rest = {NULL, 0, 0};
    uint64_t gone = 0;
    for (size_t i = 0; i < table->size; i++) {
        struct item *item = table->slots[i].item;
        if (item != NULL && item->map == map) {
            free(item);
            gone++;
        } else if (item != NULL) {
            if (4 * (rest.count + 1) > 3 * rest.size) {
                grow(&rest);
            }
            *find(&rest, table->slots[i].hash, item->map, key_of(item)) = table->slots[i];
            rest.count++;
        }
    }
    free(table->slots);
    *table = rest;
    return gone;
}

// ---- the log

enum { VALUE, TOMBSTONE, CLEARING };

struct header {
    uint64_t map;
    uint32_t key_length;
    uint32_t value_length;
    uint8_t partition;
    uint8_t form;
    uint8_t unused[6];
};

static const char *folder;
static bool apart;
static int logs[PARTITIONS];         // less than 0: not there yet
static bool unsynced[PARTITIONS];

// The place of the log that a partition's records go to.
static unsigned log_of(uint8_t partition) { return apart ? partition : 0; }

// Opens a log, where it is there or is to be made.
static void open_log(unsigned place, int flags) {
    char path[4096];
    int length = apart ? snprintf(path, sizeof path, "%s/log-%02u", folder, place) : snprintf(path, sizeof path, "%s/log", folder);
    if (length >= (int)sizeof path) {
        stop("the path is too long");
    }
    logs[place] = open(path, O_RDWR | O_APPEND | flags, 0644);
    if (logs[place] < 0 && (flags & O_CREAT) != 0) {
        stop("%s can't be opened", path);
    }
}

static void append(uint8_t partition, uint8_t form, uint64_t map, struct bytes key, struct bytes value) {
    static char record[sizeof(struct header) + MOST_KEY + MOST_VALUE];
    struct header header = {map, (uint32_t)key.length, (uint32_t)value.length, partition, form, {0}};
    memcpy(record, &header, sizeof header);
    memcpy(record + sizeof header, key.at, key.length);
    memcpy(record + sizeof header + key.length, value.at, value.length);
    unsigned place = log_of(partition);
    if (logs[place] < 0) {
        open_log(place, O_CREAT);
    }
    write_all(logs[place], record, sizeof header + key.length + value.length);
    unsynced[place] = true;
}

static void redo(const struct header *header, const char *at) {
    struct bytes key = {at, header->key_length};
    struct bytes value = {at + header->key_length, header->value_length};
    struct table *table = &tables[header->partition % PARTITIONS];
    if (header->form == VALUE) {
        free(put(table, header->map, key, value));
    } else if (header->form == TOMBSTONE) {
        free(take(table, header->map, key));
    } else {
        clear(table, header->map);
    }
}

// Does what whole records at the front of some bytes say, and tells how many bytes they have.
static size_t redo_whole(const char *at, size_t length) {
    size_t done = 0;
    struct header header;
    while (length - done >= sizeof header) {
        memcpy(&header, at + done, sizeof header);
        size_t body = (size_t)header.key_length + header.value_length;
        if (length - done - sizeof header < body) {
            break;
        }
        redo(&header, at + done + sizeof header);
        done += sizeof header + body;
    }
    return done;
}

// Does again what a log says, where it is there. A torn record at its end is cut off.
static void redo_log(unsigned place) {
    open_log(place, 0);
    if (logs[place] < 0) {
        return;
    }
    char *buffer = NULL;
    size_t size = 2 * PIECE + MOST_KEY, length = 0, whole = 0;
    buffer = grown(buffer, size);
    ssize_t came;
    while ((came = read(logs[place], buffer + length, size - length)) > 0) {
        length += (size_t)came;
        size_t done = redo_whole(buffer, length);
        whole += done;
        length -= done;
        memmove(buffer, buffer + done, length);
    }
    free(buffer);
    if (came < 0 || (length > 0 && ftruncate(logs[place], (off_t)whole) != 0)) {
        stop("log %u can't be read", place);
    }
}

static void redo_logs(void) {
    for (unsigned place = 0; place < (apart ? PARTITIONS : 1); place++) {
        redo_log(place);
    }
}

static void sync_log(uint8_t partition) {
    unsigned place = log_of(partition);
    if (apart && !unsynced[place]) {
        return;
    }
    if (logs[place] < 0) {
        open_log(place, O_CREAT);
    }
    if (fdatasync(logs[place]) != 0) {
        stop("a sync failed");
    }
    unsynced[place] = false;
}

// ---- playing a script

static const char *input;
static size_t input_length, input_at, line_number;

static void read_input(void) {
    char *buffer = NULL;
    size_t size = 0;
    ssize_t came;
    do {
        if (size - input_length < PIECE) {
            size = 2 * size + 2 * PIECE;
            buffer = grown(buffer, size);
        }
        came = read(STDIN_FILENO, buffer + input_length, PIECE);
        if (came < 0) {
            stop("a read failed");
        }
        input_length += (size_t)came;
    } while (came > 0);
    input = buffer;
}

// The next field of the line, and the space behind it.
static struct bytes field(void) {
    struct bytes it = {input + input_at, 0};
    while (input_at < input_length && input[input_at] != ' ' && input[input_at] != '\n') {
        input_at++;
        it.length++;
    }
    if (it.length == 0) {
        stop("line %zu is none", line_number);
    }
    if (input_at < input_length && input[input_at] == ' ') {
        input_at++;
    }
    return it;
}

static uint64_t number(void) {
    struct bytes it = field();
    uint64_t number = 0;
    for (size_t i = 0; i < it.length; i++) {
        number = 10 * number + (uint64_t)(it.at[i] - '0');
    }
    return number;
}

static struct bytes too_long(void) {
    stop("line %zu has a text that is too long", line_number);
    return (struct bytes){NULL, 0};
}

static int digit(char it) { return it <= '9' ? it - '0' : it - 'A' + 10; }

// The bytes of the next field, which is the text of a key or a value. They are copied only where one is escaped.
static struct bytes text(char *copy, size_t most) {
    struct bytes it = field();
    if (it.length == 1 && it.at[0] == '%') {
        return (struct bytes){it.at, 0};
    }
    if (memchr(it.at, '%', it.length) == NULL) {
        return it.length <= most ? it : too_long();
    }
    size_t length = 0;
    for (size_t i = 0; i < it.length; i++) {
        if (length == most) {
            return too_long();
        }
        if (it.at[i] == '%' && i + 2 < it.length) {
            copy[length++] = (char)(digit(it.at[i + 1]) << 4 | digit(it.at[i + 2]));
            i += 2;
        } else {
            copy[length++] = it.at[i];
        }
    }
    return (struct bytes){copy, length};
}

static void reply(uint64_t partition, const char *word, const struct item *item) {
    print_number(partition);
    if (item == NULL) {
        print(" none\n");
        return;
    }
    print(word);
    print_text(value_of(item));
    print("\n");
}

static bool is_word(struct bytes it, const char *word) {
    return it.length == strlen(word) && memcmp(it.at, word, it.length) == 0;
}

static void play_line(void) {
    static char key_copy[MOST_KEY], value_copy[MOST_VALUE];
    const struct bytes none = {"", 0};
    uint64_t partition = number();
    struct bytes word = field();
    if (partition >= PARTITIONS) {
        stop("line %zu has a partition that is none", line_number);
    }
    uint8_t p = (uint8_t)partition;
    struct table *table = &tables[p];
    if (is_word(word, "sync")) {
        sync_log(p);
        print_number(partition);
        print(" synced\n");
        return;
    }
    uint64_t map = number();
    if (is_word(word, "clear")) {
        uint64_t gone = clear(table, map);
        if (gone > 0) {
            append(p, CLEARING, map, none, none);
        }
        print_number(partition);
        print(" cleared ");
        print_number(gone);
        print("\n");
        return;
    }
    struct bytes key = text(key_copy, sizeof key_copy);
    if (is_word(word, "get")) {
        reply(partition, " is ", get(table, map, key));
        return;
    }
    struct item *before = NULL;
    if (is_word(word, "put")) {
        struct bytes value = text(value_copy, sizeof value_copy);
        append(p, VALUE, map, key, value);
        before = put(table, map, key, value);
    } else if (is_word(word, "remove")) {
        before = take(table, map, key);
        if (before != NULL) {
            append(p, TOMBSTONE, map, key, none);
        }
    } else {
        stop("line %zu is none", line_number);
    }
    reply(partition, " was ", before);
    free(before);
}

static void play(void) {
    read_input();
    while (input_at < input_length) {
        line_number++;
        play_line();
        if (input_at < input_length && input[input_at++] != '\n') {
            stop("line %zu has a field too many", line_number);
        }
    }
}

// ---- printing all maps

static int by_map_and_key(const void *left, const void *right) {
    const struct item *a = *(struct item *const *)left, *b = *(struct item *const *)right;
    if (a->map != b->map) {
        return a->map < b->map ? -1 : 1;
    }
    size_t shorter = a->key_length < b->key_length ? a->key_length : b->key_length;
    int order = memcmp(a->bytes, b->bytes, shorter);
    return order != 0 ? order : (a->key_length > b->key_length) - (a->key_length < b->key_length);
}

static void print_table(unsigned partition, const struct table *table) {
    struct item **items = grown(NULL, (table->count + 1) * sizeof *items);
    size_t count = 0;
    for (size_t i = 0; i < table->size; i++) {
        if (table->slots[i].item != NULL) {
            items[count++] = table->slots[i].item;
        }
    }
    qsort(items, count, sizeof *items, by_map_and_key);
    for (size_t i = 0; i < count; i++) {
        print_number(partition);
        print(" ");
        print_number(items[i]->map);
        print(" ");
        print_text(key_of(items[i]));
        print(" ");
        print_text(value_of(items[i]));
        print("\n");
    }
    free(items);
}

int main(int count, char **words) {
    apart = count == 4 && strcmp(words[3], "apart") == 0;
    if (count != (apart ? 4 : 3) || (strcmp(words[2], "play") != 0 && strcmp(words[2], "load") != 0)) {
        stop("usage: floor FOLDER play|load [apart]");
    }
    folder = words[1];
    redo_logs();
    if (strcmp(words[2], "play") == 0) {
        play();
    } else {
        for (unsigned partition = 0; partition < PARTITIONS; partition++) {
            print_table(partition, &tables[partition]);
        }
    }
    flush();
    return 0;
}
