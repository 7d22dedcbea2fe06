// A plain, tuned, unverified program that does the work of `nvmetd run PLAN` for a well formed simple plan: it reads
// the plan and the queue file, makes the same checks in the same order, serves the commands on a disk in memory, writes
// the response file and prints the summary. It is here to be measured beside nvmetd (bench/measure), and for nothing
// else: it trusts its plan, and says little about a bad queue file.
#include <fcntl.h>
#include <stdint.h>
#include <stdio.h>
#include <stdlib.h>
#include <string.h>
#include <sys/stat.h>
#include <unistd.h>

enum { ENTRY = 64, RECORD = 32, TRANSFER = 131072, FLUSH = 0, WRITE = 1, READ = 2, ZEROES = 8, FABRICS = 0x7F };
enum { SUBMIT = 1, EXECUTE = 2, CONTROL = 4 };

struct entry {
    uint8_t opcode, flags;
    uint16_t cid;
    uint32_t nsid, cdw2, cdw3;
    uint64_t mptr, sgl_address;
    uint32_t length, sgl_rest, cdw10, cdw11, cdw12, cdw13, cdw14, cdw15;
};
struct record {
    uint32_t place;
    uint8_t kind, answer;
    uint16_t zero;
    uint32_t number, length;
    uint64_t result;
    uint16_t sq_head, sq_id, cid, status;
};
_Static_assert(sizeof(struct entry) == ENTRY && sizeof(struct record) == RECORD, "as the formats have them");

struct run {
    uint8_t *disk, *out;
    uint64_t blocks, bytes_in, bytes_out;
    unsigned shift;
    size_t filled;
    uint32_t place, submitted, executed, refused;
};

static uint8_t *read_file(const char *name, size_t *size) {
    struct stat about;
    int file = open(name, O_RDONLY);
    if (file < 0 || fstat(file, &about)) exit(3);
    uint8_t *bytes = malloc(about.st_size + 1);
    size_t filled = 0;
    for (ssize_t count; bytes && (count = read(file, bytes + filled, about.st_size - filled)) > 0;) filled += count;
    if (!bytes) exit(5);
    close(file);
    *size = filled;
    return bytes;
}

static unsigned direction(const struct entry *entry) {
    return (entry->opcode == FABRICS ? entry->nsid : entry->opcode) & 3;
}

// The room that the responses may need, and a cut at the end is seen here.
static size_t room_of(const uint8_t *file, size_t size) {
    size_t room = 160;
    for (size_t at = 0; at < size;) {
        struct entry entry;
        if (size - at < ENTRY) exit(2);
        memcpy(&entry, file + at, ENTRY);
        unsigned way = direction(&entry);
        if (way == 1 && entry.length > TRANSFER) exit(6);
        if (way == 1 && size - at - ENTRY < entry.length) exit(2);
        room += 96 + (way == 2 && entry.length <= TRANSFER ? entry.length : 0);
        at += ENTRY + (way == 1 ? entry.length : 0);
    }
    return room;
}

static uint16_t check(const struct run *run, const struct entry *entry) {
    unsigned opcode = entry->opcode;
    if (opcode != FLUSH && opcode != WRITE && opcode != READ && opcode != ZEROES) return 0x8002;
    if (entry->flags != 0x40) return 0x8004;
    if (entry->nsid != 1) return 0x8016;
    uint64_t slba = entry->cdw10 | (uint64_t)entry->cdw11 << 32, count = (entry->cdw12 & 0xFFFF) + 1;
    if (opcode != FLUSH && (slba >= run->blocks || count > run->blocks - slba)) return 0x8100;
    uint64_t length = opcode == READ || opcode == WRITE ? count << run->shift : 0;
    if (entry->length != length) return 0x801E;
    return length > TRANSFER ? 0x8004 : 0;
}

static void put(struct run *run, uint8_t kind, int answered, uint32_t number, const struct entry *entry,
                uint16_t status, const uint8_t *data, uint32_t length) {
    struct record record = {.place = run->place++, .kind = kind, .answer = answered, .number = number,
                            .length = length};
    if (answered) record.sq_id = 1, record.cid = entry->cid, record.status = status;
    memcpy(run->out + run->filled, &record, RECORD);
    if (length) memcpy(run->out + run->filled + RECORD, data, length);
    run->filled += RECORD + length;
    run->bytes_out += length;
    run->refused += status != 0;
}

static void execute(struct run *run, const struct entry *entry, uint32_t number, const uint8_t *data) {
    uint64_t slba = entry->cdw10 | (uint64_t)entry->cdw11 << 32, count = (entry->cdw12 & 0xFFFF) + 1;
    uint8_t *blocks = run->disk + (slba << run->shift);
    run->executed++;
    if (entry->opcode == READ) {
        put(run, EXECUTE, 1, number, entry, 0, blocks, entry->length);
        return;
    }
    if (entry->opcode == WRITE) memcpy(blocks, data, entry->length), run->bytes_in += entry->length;
    if (entry->opcode == ZEROES) memset(blocks, 0, count << run->shift);
    put(run, EXECUTE, 1, number, entry, 0, NULL, 0);
}

static void serve(struct run *run, const uint8_t *file, size_t size) {
    uint32_t number = 0;
    for (size_t at = 0; at < size; number++) {
        struct entry entry;
        memcpy(&entry, file + at, ENTRY);
        const uint8_t *data = file + at + ENTRY;
        at += ENTRY + (direction(&entry) == 1 ? entry.length : 0);
        if (entry.opcode == FABRICS) {
            put(run, CONTROL, 1, number, &entry, 0x8002, NULL, 0);
            continue;
        }
        uint16_t status = check(run, &entry);
        run->submitted++;
        put(run, SUBMIT, status != 0, number, &entry, status, NULL, 0);
        if (!status) execute(run, &entry, number, data);
    }
}

int main(int count, char **words) {
    char queue[256], responses[256], line[600];
    struct run run = {0};
    FILE *plan = count == 3 && !strcmp(words[1], "run") ? fopen(words[2], "r") : NULL;
    if (!plan) return 1;
    while (fgets(line, sizeof line, plan)) {
        unsigned long long blocks;
        if (sscanf(line, "disk %*s %u %llu", &run.shift, &blocks) == 2) run.blocks = blocks;
        sscanf(line, "queue %*u %255s %255s", queue, responses);
    }
    fclose(plan);
    size_t size;
    uint8_t *file = read_file(queue, &size);
    run.disk = calloc(run.blocks, (size_t)1 << run.shift);
    run.out = malloc(room_of(file, size));
    if (!run.disk || !run.out) return 5;
    serve(&run, file, size);
    int to = open(responses, O_WRONLY | O_CREAT | O_TRUNC, 0666);
    for (size_t done = 0; done < run.filled;) {
        ssize_t more = write(to, run.out + done, run.filled - done);
        if (more <= 0) return 4;
        done += more;
    }
    close(to);
    printf("places %u\nedits 0 accepted 0 refused\ndrains 0\n", run.place);
    printf("commands %u submitted %u executed %u refused\n", run.submitted, run.executed, run.refused);
    printf("events 0 answered 0 waiting\nbytes %llu in %llu out\nconfig 0 passed over\n",
           (unsigned long long)run.bytes_in, (unsigned long long)run.bytes_out);
    return 0;
}
