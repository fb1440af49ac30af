/* Drives the proved node and the node by hand through the same events, in the same order each time.
 *
 * usage: bench mark FILE...            under QEMU with count.so: every measured call stands between two marks
 *        bench report COUNTS FILE...   the same calls again, with what was counted: prints the tables
 *        bench stack FILE...           the same calls on a painted stack: prints the most that was used
 *
 * FILE: 13-byte events, for the mixed work. Both nodes have to answer alike, or the program stops. */
#include "nodes.h"

#include <stdio.h>
#include <stdlib.h>
#include <string.h>

/* ---- The nodes, and the calls as firmware makes them */

static proved_node proved;
static fast_node fast;

typedef void job(const uint8_t *event, size_t length);

static __attribute__((noinline)) void call_proved(const uint8_t *event, size_t length)
{
    const seumhwari_answer a =
        seumhwari_event(event, length, proved.state, proved.a.out, OUT, proved.a.store, STORE);
    proved.state = a.state;
    proved.a.number = a.number;
    proved.a.count = a.count;
}

static __attribute__((noinline)) void call_fast(const uint8_t *event, size_t length)
{
    const fast_answer a = fast_event(&fast.state, event, length, fast.a.out, OUT, fast.a.store, STORE);
    fast.a.number = a.number;
    fast.a.count = a.count;
}

static __attribute__((noinline)) void on_proved(const uint8_t *event, size_t length)
{
    static const seumhwari_identity identity;
    (void)event, (void)length;
    const seumhwari_answer a = seumhwari_power_on(identity, proved.a.out, OUT, proved.a.store, STORE);
    proved.state = a.state;
    proved.a.number = a.number;
    proved.a.count = a.count;
}

static __attribute__((noinline)) void on_fast(const uint8_t *event, size_t length)
{
    static const fast_identity identity;
    (void)event, (void)length;
    const fast_answer a = fast_power_on(&fast.state, &identity, fast.a.out, OUT, fast.a.store, STORE);
    fast.a.number = a.number;
    fast.a.count = a.count;
}

/* One instruction, its return; the volatile line keeps the call. */
static __attribute__((noinline)) void call_nothing(const uint8_t *event, size_t length)
{
    (void)event, (void)length;
    __asm__ volatile("");
}

/* ---- Measuring */

static enum { MARKING, REPORTING, PAINTING } mode;
static FILE *counts;
static uint32_t around; /* what lies between the marks beside the call's own instructions */

/* An instruction without effect that no compiler makes; count.c looks for its bytes. */
#define MARK() __asm__ volatile(".byte 0x0F, 0x1F, 0x84, 0x20; .ascii \"MARK\"" ::: "memory")

static __attribute__((noinline)) void between_marks(job *call, const uint8_t *event, size_t length)
{
    MARK();
    call(event, length);
    MARK();
}

enum { PAINT = 0xA5, STACK_SIZE = 16384 };
static uint8_t stack[STACK_SIZE] __attribute__((aligned(64)));

static const uint8_t *stack_event;
static size_t stack_length;
static job *stack_job;

static void job_on_stack(void)
{
    stack_job(stack_event, stack_length);
}

/* rbx keeps the stack pointer over the call. The jump to the call and its return address are 8 bytes. */
static void switch_stack(void)
{
    __asm__ volatile("mov %%rsp, %%rbx\n\tmov %0, %%rsp\n\tcall *%1\n\tmov %%rbx, %%rsp"
                     :: "r"(stack + STACK_SIZE), "r"(job_on_stack)
                     : "rbx", "rax", "rcx", "rdx", "rsi", "rdi", "r8", "r9", "r10", "r11", "xmm0", "xmm1", "xmm2",
                       "xmm3", "xmm4", "xmm5", "xmm6", "xmm7", "xmm8", "xmm9", "xmm10", "xmm11", "xmm12", "xmm13",
                       "xmm14", "xmm15", "memory", "cc");
}

static uint32_t painted(job *call, const uint8_t *event, size_t length)
{
    size_t untouched = 0;
    memset(stack, PAINT, STACK_SIZE);
    stack_event = event, stack_length = length, stack_job = call;
    switch_stack();
    while (untouched < STACK_SIZE && stack[untouched] == PAINT)
        untouched++;
    return (uint32_t)(STACK_SIZE - untouched);
}

static uint32_t measured(job *call, const uint8_t *event, size_t length)
{
    uint32_t count = 0;
    if (mode == PAINTING)
        return painted(call, event, length);
    between_marks(call, event, length);
    if (mode == REPORTING && fread(&count, sizeof count, 1, counts) != 1) {
        fprintf(stderr, "bench: the counts are of other calls\n");
        exit(1);
    }
    return count - around;
}

/* ---- Rows of the report */

typedef struct {
    uint64_t sum;
    uint32_t most;
    uint8_t event[EVENT];        /* the worst */
} column;

/* The tables: some work as a whole, each service in the mixed work, events one by one. */
typedef enum { WORK, SERVICE, SINGLE } table;

typedef struct {
    table in;
    const char *name;
    uint64_t calls;
    column proved, fast;
} row;

static row rows[80];
static size_t row_count;

static row *row_of(table in, const char *name)
{
    for (size_t i = 0; i < row_count; i++)
        if (rows[i].in == in && strcmp(rows[i].name, name) == 0)
            return &rows[i];
    rows[row_count].in = in;
    rows[row_count].name = name;
    return &rows[row_count++];
}

static void note(column *c, uint32_t count, const uint8_t *event)
{
    c->sum += count;
    if (count <= c->most)
        return;
    c->most = count;
    memcpy(c->event, event, EVENT);
}

static void note_both(row *r, uint32_t one, uint32_t other, const uint8_t *event)
{
    r->calls++;
    note(&r->proved, one, event);
    note(&r->fast, other, event);
}

static void alike(const uint8_t *event)
{
    if (memcmp(&proved.a, &fast.a, sizeof proved.a) == 0)
        return;
    fprintf(stderr, "bench: the nodes differ at event");
    for (size_t i = 0; i < EVENT; i++)
        fprintf(stderr, " %02X", event[i]);
    fprintf(stderr, "\n");
    exit(1);
}

typedef struct {
    uint32_t proved, fast;
} pair;

static pair both(job *one, job *other, const uint8_t *event, size_t length)
{
    const uint32_t first = measured(one, event, length);
    const pair p = { first, measured(other, event, length) };
    alike(event);
    return p;
}

/* ---- Events */

typedef struct {
    uint8_t bytes[EVENT];
} event;

static event tick(void)
{
    const event e = { { 2 } };
    return e;
}

static event sample(uint16_t fv)
{
    const event e = { { 3, (uint8_t)fv, (uint8_t)(fv >> 8) } };
    return e;
}

static event frame(uint16_t can_id, uint8_t remote, uint8_t length, uint64_t data)
{
    event e = { { 1, (uint8_t)can_id, (uint8_t)(can_id >> 8), remote, length } };
    memcpy(e.bytes + 5, &data, sizeof data);
    return e;
}

static event sync(void) { return frame(0x80, 0, 0, 0); }
static event nmt(uint8_t command) { return frame(0, 0, 2, command); }
static event lss(uint64_t data) { return frame(0x7E5, 0, 8, data); }
static event sdo(uint64_t data) { return frame(0x600u + fast.state.c.id, 0, 8, data); }

static event sdo_read(uint32_t index, uint32_t sub)
{
    return sdo(0x40u | index << 8 | sub << 24);
}

static event sdo_write(uint32_t index, uint32_t sub, uint32_t size, uint32_t value)
{
    return sdo((uint64_t)value << 32 | sub << 24 | index << 8 | 0x23u | (4 - size) << 2);
}

/* Serves an event on the way to what is measured. */
static void pass(event e)
{
    call_proved(e.bytes, EVENT);
    call_fast(e.bytes, EVENT);
    alike(e.bytes);
}

static void time_in(table in, const char *name, const uint8_t *event)
{
    const pair p = both(call_proved, call_fast, event, EVENT);
    note_both(row_of(in, name), p.proved, p.fast, event);
}

static void time_it(const char *name, event e)
{
    time_in(SINGLE, name, e.bytes);
}

/* ---- Situations */

static void empty_store(void)
{
    memset(&proved.a, 0, sizeof proved.a);
    memset(&fast.a, 0, sizeof fast.a);
}

static void power_on(void)
{
    const event none = { { 0 } };
    on_proved(none.bytes, 0);
    on_fast(none.bytes, 0);
    alike(none.bytes);
}

/* Writes both signatures and validity bytes. */
static void sign(void)
{
    static const uint8_t mapping[11] = { 2, 1, 0x20, 0x01, 0x30, 0x50, 2, 0x20, 0x02, 0x30, 0x50 };
    uint8_t covered[23];
    memcpy(covered, (uint8_t *)&fast.state.c + offsetof(fast_c, direction), 12);
    memcpy(covered + 12, mapping, sizeof mapping);
    pass(sdo_write(0x13FF, 1, 2, peer_crc(covered, sizeof covered)));
    pass(sdo_write(0x13FE, 0, 1, 0xA5));
    memcpy(covered, (uint8_t *)&fast.state.a + offsetof(fast_a, low), 13);
    pass(sdo_write(0x51FF, 1, 2, peer_crc(covered, 13)));
    pass(sdo_write(0x51FE, 0, 1, 0xA5));
}

/* Signed and Pre-operational, with all three records in the store; every timer of use is on. */
static void configured(uint32_t kind)
{
    empty_store();
    power_on();
    pass(lss(0x0104));
    pass(lss(0x0511));
    pass(lss(0x17));
    pass(nmt(129));
    pass(sdo_write(0x1017, 0, 2, 1000));
    pass(sdo_write(0x1800, 2, 1, kind));
    pass(sample(12000));
    sign();
    pass(sdo_write(0x1010, 1, 4, 0x65766173));
}

static void in_operation(uint32_t kind)
{
    configured(kind);
    pass(nmt(1));
}

static void time_power_on(const char *name)
{
    const event none = { { 0 } };
    const pair p = both(on_proved, on_fast, none.bytes, 0);
    note_both(row_of(SINGLE, name), p.proved, p.fast, none.bytes);
}

static const char mixed_name[] = "mixed", service_name[] = "in service";

/* ---- Each service by itself */

static void ticks(void)
{
    in_operation(254);
    pass(tick());
    time_it("tick, nothing due", tick());
    pass(sdo_write(0x1017, 0, 2, 1));
    time_it("tick, heartbeat", tick());
    pass(sdo_write(0x1800, 5, 2, 25));
    pass(sdo_write(0x1017, 0, 2, 25));
    pass(nmt(128));
    pass(nmt(1));
    pass(sdo_write(0x1017, 0, 2, 25));
    for (int i = 0; i < 24; i++)
        pass(tick());
    time_it("tick, heartbeat, TPDO and SRDO", tick());
    configured(254);
    time_it("tick, Pre-operational", tick());
    empty_store();
    power_on();
    time_it("tick, nothing signed", tick());
}

static void samples(void)
{
    in_operation(254);
    time_it("sample", sample(12345));
    pass(nmt(128));
    pass(sdo_write(0x6123, 1, 4, 0x49742400));
    pass(sdo_write(0x6132, 1, 1, 4));
    pass(sample(4000));
    time_it("sample that caps, with EMCY", sample(20000));
}

static void syncs(void)
{
    in_operation(1);
    time_it("SYNC, TPDO sent", sync());
    in_operation(240);
    time_it("SYNC, counted", sync());
    in_operation(254);
    time_it("SYNC, of no use", sync());
    in_operation(253);
    time_it("remote frame, TPDO sent", frame(0x180u + fast.state.c.id, 1, 4, 0));
}

static void nmt_commands(void)
{
    configured(254);
    time_it("NMT Start", nmt(1));
    time_it("NMT Pre-operational", nmt(128));
    time_it("NMT Stop", nmt(2));
    time_it("NMT Start from Stopped", nmt(1));
    time_it("NMT reset communication, full store", nmt(130));
    time_it("NMT reset node, full store", nmt(129));
    empty_store();
    power_on();
    time_it("NMT reset node, zero store", nmt(129));
}

static void sdo_reads(void)
{
    in_operation(254);
    time_it("SDO read of a U8 (6132h:1)", sdo_read(0x6132, 1));
    time_it("SDO read of a constant (1000h:0)", sdo_read(0x1000, 0));
    time_it("SDO read of PV (6130h:1)", sdo_read(0x6130, 1));
    time_it("SDO read of the integer PV (9130h:1)", sdo_read(0x9130, 1));
    time_it("SDO read, no such object", sdo_read(0x2000, 0));
    time_it("name, initiate", sdo_read(0x1008, 0));
    time_it("name, segment", sdo(0x60));
    time_it("name, segment", sdo(0x70));
    time_it("name, segment", sdo(0x60));
}

static void sdo_writes(void)
{
    configured(254);
    time_it("SDO write, the same again (6132h:1)", sdo_write(0x6132, 1, 1, 2));
    time_it("SDO write, changed and covered (6123h:1)", sdo_write(0x6123, 1, 4, 0x43200001));
    pass(sdo_write(0x6123, 1, 4, 0x43200000));
    time_it("SDO write of A5h, valid (51FEh)", sdo_write(0x51FE, 0, 1, 0xA5));
    time_it("SDO write of A5h, valid (13FEh)", sdo_write(0x13FE, 0, 1, 0xA5));
    time_it("SDO write, refused by its range (6132h:1)", sdo_write(0x6132, 1, 1, 5));
    time_it("SDO write, refused as read-only (1000h:0)", sdo_write(0x1000, 0, 4, 5));
    time_it("SDO write of a period (1017h:0)", sdo_write(0x1017, 0, 2, 500));
}

static void words(void)
{
    configured(254);
    time_it("save (1010h:1), full store", sdo_write(0x1010, 1, 4, 0x65766173));
    time_it("save of C alone (1010h:2), full store", sdo_write(0x1010, 2, 4, 0x65766173));
    time_it("load word (1011h:1), full store", sdo_write(0x1011, 1, 4, 0x64616F6C));
    empty_store();
    power_on();
    time_it("save (1010h:1), zero store", sdo_write(0x1010, 1, 4, 0x65766173));
}

static void lss_frames(void)
{
    configured(254);
    time_it("LSS select, 40h to 42h", lss(0x40));
    time_it("LSS select, 40h to 42h", lss(0x41));
    time_it("LSS select, 40h to 42h", lss(0x42));
    time_it("LSS select, 43h with answer", lss(0x43));
    time_it("LSS set Node-ID (11h)", lss(0x0711));
    time_it("LSS active ID (5Eh)", lss(0x5E));
    time_it("LSS store (17h), full store", lss(0x17));
}

static void others(void)
{
    in_operation(254);
    time_it("foreign frame", frame(0x201, 0, 8, 0));
    event wrong = tick();
    wrong.bytes[0] = 4;
    time_it("refused by its kind (2)", wrong);
    proved.state.core.lss.progress = 4;
    fast.state.progress = 4;
    time_it("refused by the state's last rules (6)", tick());
    configured(254);
    time_power_on("power-on, full store");
    empty_store();
    time_power_on("power-on, zero store");
}

/* ---- Work */

static void serve(event e)
{
    time_in(WORK, service_name, e.bytes);
}

/* One service period: 40 seconds of an Operational node, the second half with TPDOs by SYNC. */
static void in_service(uint32_t kind)
{
    static const uint16_t looked_at[] = { 0x6130, 0x9130, 0x7100, 0x5030 };
    in_operation(kind);
    for (uint32_t t = 1; t <= 20000; t++) {
        serve(tick());
        if (t % 10 == 0)
            serve(sample((uint16_t)(4000 + t * 7 % 16000)));
        if (t % 20 == 0)
            serve(sync());
        if (t % 100 == 0)
            serve(sdo_read(looked_at[t / 100 % 4], 1));
        if (t % 50 == 0)
            serve(frame(0x182, 0, 4, t)); /* the neighbour's TPDO */
    }
}

/* What an event asks of the node with this ID. */
static const char *service_of(const uint8_t *e, uint8_t id)
{
    const unsigned can_id = e[1] | e[2] << 8, length = e[4], command = e[5], index = e[6] | e[7] << 8;
    if (e[0] == 2 || e[0] == 3)
        return e[0] == 2 ? "tick" : "sample";
    if (e[0] != 1 || can_id > 2047 || e[3] > 1 || length > 8)
        return "no event: refused";
    if (e[3] == 1)
        return can_id == 0x180u + id ? "remote frame" : "frame of no service";
    if (can_id == 0x80 && length == 0)
        return "SYNC";
    if (can_id == 0 && length == 2)
        return command == 129 || command == 130 ? "NMT reset" : "NMT, another command";
    if (can_id == 0x7E5 && length == 8)
        return command == 0x17 ? "LSS store (17h)" : "LSS, another request";
    if (can_id != 0x600u + id || length != 8)
        return "frame of no service";
    if (command >> 5 == 1)
        return index == 0x1010 || index == 0x1011 ? "SDO save or load word" : "SDO write";
    return command >> 5 == 2 ? "SDO read" : "SDO, another request";
}

static void time_mixed(const uint8_t *event)
{
    const char *name = service_of(event, fast.state.c.id);
    const pair p = both(call_proved, call_fast, event, EVENT);
    note_both(row_of(WORK, mixed_name), p.proved, p.fast, event);
    note_both(row_of(SERVICE, name), p.proved, p.fast, event);
}

static void mixed(const char *path)
{
    static uint8_t bytes[1 << 22];
    FILE *file = fopen(path, "rb");
    const size_t size = file == NULL ? 0 : fread(bytes, 1, sizeof bytes, file);
    if (size == 0) {
        fprintf(stderr, "bench: no events in %s\n", path);
        exit(1);
    }
    fclose(file);
    empty_store();
    power_on();
    for (size_t i = 0; i + EVENT <= size; i += EVENT)
        time_mixed(bytes + i);
}

static void everything(int files, char **file)
{
    const event none = { { 0 } };
    around = measured(call_nothing, none.bytes, 0) - 1; /* less its return: the call's own */
    if (mode == PAINTING)
        around = 0;
    for (int i = 0; i < files; i++)
        mixed(file[i]);
    in_service(254);
    in_service(1);
    ticks();
    samples();
    syncs();
    nmt_commands();
    sdo_reads();
    sdo_writes();
    words();
    lss_frames();
    others();
}

/* ---- The report */

static bool is_power_on(const row *r)
{
    return strncmp(r->name, "power-on", 8) == 0;
}

static void print_row(const row *r)
{
    const double calls = (double)r->calls, one = (double)r->proved.sum / calls, other = (double)r->fast.sum / calls;
    const uint32_t most = r->proved.most, fast_most = r->fast.most;
    if (r->in == SINGLE)
        printf("| %s | %u | %u | %.2f |\n", r->name, most, fast_most, (double)most / fast_most);
    else
        printf("| %s | %lu | %.1f | %.1f | **%.2f** | %u | %u | **%.2f** |\n", r->name, (unsigned long)r->calls, one, other,
               one / other, most, fast_most, (double)most / fast_most);
}

static void print_table(table in, const char *head)
{
    printf("%s", head);
    for (size_t i = 0; i < row_count; i++)
        if (rows[i].in == in)
            print_row(&rows[i]);
}

/* The row of the dearest event; a power-on is none. */
static const row *worst(size_t place)
{
    const row *most = NULL;
    for (const row *r = rows; r < rows + row_count; r++) {
        const column *c = (const column *)((const char *)r + place);
        if (!is_power_on(r) && (most == NULL || c->most > ((const column *)((const char *)most + place))->most))
            most = r;
    }
    return most;
}

static void print_event(const uint8_t *e)
{
    if (e[0] != 1)
        printf(e[0] == 2 ? "a tick" : "a sample of %u", (unsigned)(e[1] | e[2] << 8));
    else
        printf("a frame on %03X with", (unsigned)(e[1] | e[2] << 8));
    for (size_t i = 0; e[0] == 1 && i < e[4]; i++)
        printf(" %02X", e[5 + i]);
}

static void print_goal(const char *goal, bool met, const char *form, double number)
{
    printf("| %s | ", goal);
    printf(form, number);
    printf(" | %s |\n", met ? "met" : "**not met**");
}

static void print_goals(void)
{
    const row *one = worst(offsetof(row, proved)), *other = worst(offsetof(row, fast));
    const double ratio = (double)one->proved.most / other->fast.most;
    for (size_t i = 0; i < 2; i++) {
        const row *r = row_of(WORK, i == 0 ? mixed_name : service_name);
        const double mean = (double)r->proved.sum / (double)r->fast.sum;
        print_goal(i == 0 ? "mean, mixed work: at most 1.3 times the C"
                          : "mean, in service: at most 1.3 times the C", mean <= 1.3, "%.2f times", mean);
    }
    print_goal("worst event: at most 1.3 times the C's worst", ratio <= 1.3, "%.2f times", ratio);
    print_goal("worst event: under 3,400 instructions", one->proved.most < 3400, "%.0f", one->proved.most);
}

static void print_report(void)
{
    print_table(WORK, "| Work | events | mean: proved | by hand | ratio | worst: proved | by hand | ratio |\n"
                      "|--|--|--|--|--|--|--|--|\n");
    print_table(SERVICE, "\n| Service, in the mixed work | events | mean: proved | by hand | ratio | worst: proved | by hand | ratio |\n"
                         "|--|--|--|--|--|--|--|--|\n");
    print_table(SINGLE, "\n| One event | proved | by hand | ratio |\n|--|--|--|--|\n");
    const row *one = worst(offsetof(row, proved)), *other = worst(offsetof(row, fast));
    printf("\nThe dearest event of the proved node is ");
    print_event(one->proved.event);
    printf(" (%u instructions), of the node by hand ", one->proved.most);
    print_event(other->fast.event);
    printf(" (%u).\n\n| Goal | Measured | |\n|--|--|--|\n", other->fast.most);
    print_goals();
}

static void print_stack(void)
{
    uint32_t one = 0, other = 0;
    for (size_t i = 0; i < row_count; i++) {
        one = rows[i].proved.most > one ? rows[i].proved.most : one;
        other = rows[i].fast.most > other ? rows[i].fast.most : other;
    }
    printf("| stack, bytes, worst | %u | %u |\n", one, other);
    printf("| state, bytes | %u | %u |\n", (unsigned)sizeof(seumhwari_state), (unsigned)sizeof(fast_state));
}

int main(int argc, char **argv)
{
    if (argc > 2 && strcmp(argv[1], "mark") == 0) {
        mode = MARKING;
        everything(argc - 2, argv + 2);
    } else if (argc > 3 && strcmp(argv[1], "report") == 0) {
        mode = REPORTING;
        counts = fopen(argv[2], "rb");
        if (counts == NULL)
            return 1;
        everything(argc - 3, argv + 3);
        print_report();
    } else if (argc > 2 && strcmp(argv[1], "stack") == 0) {
        mode = PAINTING;
        everything(argc - 2, argv + 2);
        print_stack();
    } else {
        fprintf(stderr, "usage: bench mark FILE... | bench report COUNTS FILE... | bench stack FILE...\n");
        return 2;
    }
    return 0;
}
