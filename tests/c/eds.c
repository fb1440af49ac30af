/* eds FILE: holds an EDS file (CiA 306) against the node that it describes.
 *
 * A tool believes an EDS file, so a wrong line in it becomes a wrong node in the field. Nothing here
 * knows the dictionary by heart: what the file says is put to the node as a bus would, by SDO, and
 * the node's replies decide. From document 01 come only the abort codes and the few things that the
 * form of an EDS file can't say: sets with holes, the words of 1010h and 1011h, the validity bytes
 * and the COB-IDs of the safety pair.
 *
 * The reader stops at the first line that it does not understand. The checks go on after a
 * difference, but each entry is named once only. Status 0: no difference. */
#include "seumhwari.h"

#include <stdio.h>
#include <stdlib.h>
#include <string.h>

/* ---- Messages */

enum { TOO_MANY = 50 };

static const char *path;
static unsigned differences;

/* A node that answers everything wrongly would fill the screen; this ends it. */
static void count_difference(void)
{
    differences++;
    if (differences < TOO_MANY)
        return;
    printf("eds: %u differences, the rest is not looked at\n", differences);
    exit(EXIT_FAILURE);
}

/* Line 0 stands for what the file does not have. */
static void print_place(FILE *to, int line)
{
    if (line == 0)
        fprintf(to, "eds: %s: ", path);
    else
        fprintf(to, "eds: %s:%d: ", path, line);
}

#define DIFFERS(line, ...) \
    (print_place(stdout, line), printf(__VA_ARGS__), putchar('\n'), count_difference())

#define ENTRY_DIFFERS(e, ...) \
    (print_place(stdout, (e)->line), printf("%04Xh:%02X: ", (e)->index, (e)->sub), \
     printf(__VA_ARGS__), putchar('\n'), (e)->named = true, count_difference())

/* For a file that can't be read on. */
static void stop(int line, const char *what, const char *text)
{
    fflush(stdout);
    print_place(stderr, line);
    fprintf(stderr, "%s: %s\n", what, text);
    exit(EXIT_FAILURE);
}

/* For a node that breaks the protocol, after which no reply means anything. */
static void broken(const char *what, unsigned number)
{
    fflush(stdout);
    fprintf(stderr, "eds: the node %s %u\n", what, number);
    exit(EXIT_FAILURE);
}

static void broken_at(const char *what, unsigned index, unsigned sub)
{
    fflush(stdout);
    fprintf(stderr, "eds: the node %s %04Xh:%02X\n", what, index, sub);
    exit(EXIT_FAILURE);
}

/* ---- The reader: sections, and their keys with their values */

enum { LINE = 256, NAME = 40, SECTIONS = 256, PAIRS = 2048 };

typedef struct {
    int line;
    char key[NAME], text[LINE];
} pair;

typedef struct {
    int line, first, count;      /* its keys are pairs[first] and on */
    char name[NAME];
} section;

static pair pairs[PAIRS];
static section sections[SECTIONS];
static int pair_count, section_count;

static const pair *find_pair(const section *s, const char *key)
{
    for (int i = s->first; i < s->first + s->count; i++)
        if (strcmp(pairs[i].key, key) == 0)
            return &pairs[i];
    return NULL;
}

static const section *find_section(const char *name)
{
    for (int i = 0; i < section_count; i++)
        if (strcmp(sections[i].name, name) == 0)
            return &sections[i];
    return NULL;
}

static const pair *need(const section *s, const char *key)
{
    const pair *p = find_pair(s, key);
    if (p == NULL)
        stop(s->line, "the section lacks the key", key);
    return p;
}

static void open_section(int line, char *text)
{
    char *end = strchr(text, ']');
    if (end == NULL || end[1] != '\0' || end == text + 1)
        stop(line, "not a section", text);
    *end = '\0';
    if (strlen(text + 1) >= NAME || section_count == SECTIONS)
        stop(line, "a name too long or a section too many", text + 1);
    if (find_section(text + 1) != NULL)
        stop(line, "a second section of the name", text + 1);
    section *s = &sections[section_count++];
    s->line = line;
    s->first = pair_count;
    strcpy(s->name, text + 1);
}

static void add_pair(int line, char *text)
{
    char *equals = strchr(text, '=');
    if (equals == NULL || equals == text)
        stop(line, "neither comment, section nor key=value", text);
    if (section_count == 0)
        stop(line, "a key ahead of any section", text);
    *equals = '\0';
    section *s = &sections[section_count - 1];
    if (strlen(text) >= NAME || pair_count == PAIRS)
        stop(line, "a name too long or a key too many", text);
    if (find_pair(s, text) != NULL)
        stop(line, "given twice in its section", text);
    pair *p = &pairs[pair_count++];
    p->line = line;
    strcpy(p->key, text);
    strcpy(p->text, equals + 1);
    s->count++;
}

/* Tools end their lines with LF or with CR LF; both are taken. */
static void read_line(int line, char *text)
{
    size_t length = strlen(text);
    if (length == LINE - 1 && text[length - 1] != '\n')
        stop(line, "a line too long", text);
    while (length > 0 && (text[length - 1] == '\n' || text[length - 1] == '\r'))
        text[--length] = '\0';
    if (length == 0 || text[0] == ';')
        return;
    if (text[0] == '[')
        open_section(line, text);
    else
        add_pair(line, text);
}

static void read_file(void)
{
    char text[LINE];
    int line = 0;
    FILE *file = fopen(path, "r");
    if (file == NULL)
        stop(0, "this file cannot be opened", path);
    while (fgets(text, LINE, file) != NULL)
        read_line(++line, text);
    if (ferror(file))
        stop(line, "cannot be read on", path);
    fclose(file);
}

/* ---- What the values mean */

enum { INTEGER32 = 4, UNSIGNED8, UNSIGNED16, UNSIGNED32, REAL32, VISIBLE_STRING };
enum { VAR = 7, ARRAY, RECORD };
enum access { CONST, RO, RW };

typedef struct {
    int line;
    unsigned index, kind, subs;  /* subs: what SubNumber says; 0 for a VAR */
} object;

typedef struct {
    int line;
    unsigned index, sub, type, mapping, flags;
    enum access access;
    bool given, relative;        /* a default is given; it is on top of the Node-ID */
    bool limited;
    uint32_t standard, low, high;                            /* the bits as they travel */
    const char *text;            /* the default as the file has it */
    bool named;                  /* a difference was reported */
} entry;

static object objects[SECTIONS];
static entry entries[SECTIONS];
static int object_count, entry_count;

/* Bytes on the bus; 0 for a string, whose length is its own. */
static unsigned size_of(unsigned type)
{
    switch (type) {
    case UNSIGNED8: return 1;
    case UNSIGNED16: return 2;
    case VISIBLE_STRING: return 0;
    default: return 4;
    }
}

static uint32_t greatest(unsigned type)
{
    return type == UNSIGNED8 ? 0xFF : type == UNSIGNED16 ? 0xFFFF : 0xFFFFFFFF;
}

/* A whole number without sign, decimal or 0x. */
static uint32_t whole(int line, const char *text)
{
    char *end;
    if (text[0] < '0' || text[0] > '9')
        stop(line, "not a number", text);
    const unsigned long value = strtoul(text, &end, 0);
    if (*end != '\0' || value > UINT32_MAX)
        stop(line, "not a number of 32 bits", text);
    return (uint32_t)value;
}

static uint32_t number(const section *s, const char *key)
{
    const pair *p = need(s, key);
    return whole(p->line, p->text);
}

/* Tools write a Real32 as a decimal; its bits in hex would be read by them as a large number. */
static uint32_t real_bits(int line, const char *text)
{
    char *end;
    uint32_t bits;
    const float value = strtof(text, &end);
    memcpy(&bits, &value, sizeof bits);
    if (end == text || *end != '\0' || strchr(text, 'x') != NULL || (bits >> 23 & 0xFF) == 0xFF)
        stop(line, "not a finite decimal", text);
    return bits;
}

static uint32_t value_bits(int line, unsigned type, const char *text)
{
    if (type == REAL32)
        return real_bits(line, text);
    const bool negative = type == INTEGER32 && text[0] == '-';
    const uint32_t size = whole(line, negative ? text + 1 : text);
    if (size > (type == INTEGER32 ? 0x7FFFFFFFu + negative : greatest(type)))
        stop(line, "too large for its DataType", text);
    return negative ? 0 - size : size;
}

static void read_default(entry *e, const section *s)
{
    static const char above[] = "$NODEID+";
    const pair *p = find_pair(s, "DefaultValue");
    if (p == NULL || p->text[0] == '\0')
        return;
    e->given = true;
    e->text = p->text;
    if (e->type == VISIBLE_STRING)
        return;
    e->relative = strncmp(p->text, above, strlen(above)) == 0;
    e->standard = value_bits(p->line, e->type, p->text + (e->relative ? strlen(above) : 0));
}

static void read_limits(entry *e, const section *s)
{
    const pair *low = find_pair(s, "LowLimit"), *high = find_pair(s, "HighLimit");
    if (low == NULL && high == NULL)
        return;
    if (low == NULL || high == NULL)
        stop(s->line, "one limit without the other", s->name);
    e->limited = true;
    e->low = value_bits(low->line, e->type, low->text);
    e->high = value_bits(high->line, e->type, high->text);
}

static enum access read_access(const section *s)
{
    const pair *p = need(s, "AccessType");
    if (strcmp(p->text, "const") != 0 && strcmp(p->text, "ro") != 0 && strcmp(p->text, "rw") != 0)
        stop(p->line, "not one of const, ro and rw", p->text);
    return p->text[0] == 'c' ? CONST : p->text[1] == 'o' ? RO : RW;
}

static void check_keys(const section *s, const char *const *known)
{
    for (int i = s->first; i < s->first + s->count; i++) {
        int k = 0;
        while (known[k] != NULL && strcmp(known[k], pairs[i].key) != 0)
            k++;
        if (known[k] == NULL)
            stop(pairs[i].line, "a key that does not belong in its section", pairs[i].key);
    }
}

static void read_entry(const section *s, unsigned index, unsigned sub)
{
    static const char *const known[] = { "ParameterName", "ObjectType", "DataType", "LowLimit", "HighLimit",
                                         "AccessType", "DefaultValue", "PDOMapping", "ObjFlags", NULL };
    entry *e = &entries[entry_count++];
    check_keys(s, known);
    need(s, "ParameterName");
    e->line = s->line;
    e->index = index;
    e->sub = sub;
    e->type = number(s, "DataType");
    if (e->type < INTEGER32 || e->type > VISIBLE_STRING)
        stop(need(s, "DataType")->line, "a DataType that this node does not have", need(s, "DataType")->text);
    e->access = read_access(s);
    e->mapping = number(s, "PDOMapping");
    e->flags = find_pair(s, "ObjFlags") == NULL ? 0 : number(s, "ObjFlags");
    read_default(e, s);
    read_limits(e, s);
}

static object *find_object(unsigned index)
{
    for (int i = 0; i < object_count; i++)
        if (objects[i].index == index)
            return &objects[i];
    return NULL;
}

static entry *find_entry(unsigned index, unsigned sub)
{
    for (int i = 0; i < entry_count; i++)
        if (entries[i].index == index && entries[i].sub == sub)
            return &entries[i];
    return NULL;
}

/* A plain object is its own entry; a record's head has only a name and the number of its subs. */
static void read_object(const section *s, unsigned index)
{
    static const char *const head[] = { "ParameterName", "ObjectType", "SubNumber", NULL };
    object *o = &objects[object_count++];
    o->line = s->line;
    o->index = index;
    o->kind = number(s, "ObjectType");
    if (o->kind == VAR) {
        read_entry(s, index, 0);
        return;
    }
    if (o->kind != ARRAY && o->kind != RECORD)
        stop(need(s, "ObjectType")->line, "not VAR, ARRAY or RECORD", need(s, "ObjectType")->text);
    check_keys(s, head);
    need(s, "ParameterName");
    o->subs = number(s, "SubNumber");
}

static void read_sub(const section *s, unsigned index, unsigned sub)
{
    const object *o = find_object(index);
    if (o == NULL || o->kind == VAR)
        stop(s->line, "a sub without a record above it", s->name);
    if (number(s, "ObjectType") != VAR)
        stop(need(s, "ObjectType")->line, "a sub that is not a VAR", need(s, "ObjectType")->text);
    read_entry(s, index, sub);
}

/* The number that the hex digits at *text spell, capitals only; *text moves behind them. */
static unsigned hex(const char **text, unsigned *digits)
{
    static const char all[] = "0123456789ABCDEF";
    unsigned value = 0;
    const char *place;
    for (*digits = 0; **text != '\0' && (place = strchr(all, **text)) != NULL; (*text)++, (*digits)++)
        value = value << 4 | (unsigned)(place - all);
    return value;
}

/* [1018] and [1018sub1]; anything else is no section of ours. */
static void read_numbered(const section *s)
{
    const char *rest = s->name;
    unsigned digits, sub_digits;
    const unsigned index = hex(&rest, &digits);
    if (digits == 4 && *rest == '\0') {
        read_object(s, index);
        return;
    }
    if (digits != 4 || strncmp(rest, "sub", 3) != 0)
        stop(s->line, "a section that is not understood", s->name);
    rest += 3;
    const char first = *rest;
    const unsigned sub = hex(&rest, &sub_digits);
    if (*rest != '\0' || sub_digits < 1 || sub_digits > 2 || (sub_digits == 2 && first == '0'))
        stop(s->line, "a sub that is not understood", s->name);
    read_sub(s, index, sub);
}

/* ---- The sections about file and device, and the three lists */

static const char *const file_keys[] = { "FileName", "FileVersion", "FileRevision", "EDSVersion", "Description",
                                         "CreationTime", "CreationDate", "CreatedBy", "ModificationTime",
                                         "ModificationDate", "ModifiedBy", NULL };
static const char *const device_keys[] = { "VendorName", "VendorNumber", "ProductName", "ProductNumber",
                                           "RevisionNumber", "OrderCode", "BaudRate_10", "BaudRate_20", "BaudRate_50",
                                           "BaudRate_125", "BaudRate_250", "BaudRate_500", "BaudRate_800",
                                           "BaudRate_1000", "SimpleBootUpMaster", "SimpleBootUpSlave", "Granularity",
                                           "DynamicChannelsSupported", "CompactPDO", "GroupMessaging", "NrOfRXPDO",
                                           "NrOfTXPDO", "LSS_Supported", NULL };
static const char *const dummy_keys[] = { "Dummy0001", "Dummy0002", "Dummy0003", "Dummy0004", "Dummy0005",
                                          "Dummy0006", "Dummy0007", NULL };

static const struct {
    const char *name;
    const char *const *keys;     /* all of them are needed */
    const char *count, *numbered;                            /* or: a count, and keys that it counts */
} described[] = {
    { "FileInfo", file_keys, NULL, NULL },
    { "DeviceInfo", device_keys, NULL, NULL },
    { "DummyUsage", dummy_keys, NULL, NULL },
    { "Comments", NULL, "Lines", "Line" },
    { "MandatoryObjects", NULL, "SupportedObjects", "" },
    { "OptionalObjects", NULL, "SupportedObjects", "" },
    { "ManufacturerObjects", NULL, "SupportedObjects", "" },
};
enum { DESCRIBED = sizeof described / sizeof described[0], LISTS = 4 };

/* Lines=2, Line1=, Line2=: tools read as many as the count says, so the rest would be lost. */
static void check_counted(const section *s, const char *count, const char *numbered)
{
    const uint32_t said = number(s, count);
    const uint32_t there = (uint32_t)s->count - 1;
    if (said != there)
        DIFFERS(need(s, count)->line, "%s is %u, but [%s] has %u", count, said, s->name, there);
    for (int i = 0; i < s->count - 1; i++) {
        const pair *p = &pairs[s->first + 1 + i];
        char key[NAME];
        snprintf(key, sizeof key, "%s%d", numbered, i + 1);
        if (strcmp(p->key, key) != 0)
            stop(p->line, "a key out of its order", p->key);
    }
}

static void check_described(const section *s, int which)
{
    if (described[which].count != NULL) {
        check_counted(s, described[which].count, described[which].numbered);
        return;
    }
    check_keys(s, described[which].keys);
    for (int i = 0; described[which].keys[i] != NULL; i++)
        need(s, described[which].keys[i]);
}

static void understand(void)
{
    for (int which = 0; which < DESCRIBED; which++)
        if (find_section(described[which].name) == NULL)
            stop(0, "a section is missing", described[which].name);
    for (int i = 0; i < section_count; i++) {
        int which = 0;
        while (which < DESCRIBED && strcmp(described[which].name, sections[i].name) != 0)
            which++;
        if (which < DESCRIBED)
            check_described(&sections[i], which);
        else
            read_numbered(&sections[i]);
    }
}

static const char *list_of(unsigned index)
{
    if (index == 0x1000 || index == 0x1001 || index == 0x1018)
        return "MandatoryObjects";
    return index >= 0x2000 && index <= 0x5FFF ? "ManufacturerObjects" : "OptionalObjects";
}

static int times_listed(const section *list, unsigned index)
{
    int times = 0;
    for (int i = list->first + 1; i < list->first + list->count; i++)
        times += whole(pairs[i].line, pairs[i].text) == index;
    return times;
}

static void check_lists(void)
{
    for (int which = LISTS; which < DESCRIBED; which++) {
        const section *list = find_section(described[which].name);
        for (int i = list->first + 1; i < list->first + list->count; i++)
            if (find_object(whole(pairs[i].line, pairs[i].text)) == NULL)
                DIFFERS(pairs[i].line, "[%s] names %s, which has no section", list->name, pairs[i].text);
        for (int i = 0; i < object_count; i++) {
            const unsigned index = objects[i].index;
            const int due = strcmp(list_of(index), list->name) == 0;
            const int times = times_listed(list, index);
            if (times != due)
                DIFFERS(list->line, "%04Xh: stands %d times in [%s], expected %d", index, times, list->name, due);
        }
    }
}

/* In an array every sub but 0 has one type; sub 0 names the highest sub. */
static void check_record(const object *o)
{
    unsigned there = 0, highest = 0, type = 0;
    for (int i = 0; i < entry_count; i++) {
        entry *e = &entries[i];
        if (e->index != o->index)
            continue;
        there++;
        highest = e->sub > highest ? e->sub : highest;
        if (o->kind == ARRAY && e->sub > 0 && type != 0 && e->type != type)
            ENTRY_DIFFERS(e, "DataType %04Xh in an array of %04Xh", e->type, type);
        type = e->sub > 0 ? e->type : type;
    }
    if (there != o->subs)
        DIFFERS(o->line, "%04Xh: SubNumber is %u, but the file has %u subs", o->index, o->subs, there);
    entry *top = find_entry(o->index, 0);
    if (top == NULL)
        DIFFERS(o->line, "%04Xh: sub 0 is missing", o->index);
    else if (top->type != UNSIGNED8 || top->standard != highest)
        ENTRY_DIFFERS(top, "expected an Unsigned8 with %u, the highest sub of the file", highest);
}

static void check_records(void)
{
    for (int i = 0; i < object_count; i++)
        if (objects[i].kind != VAR)
            check_record(&objects[i]);
}

/* ---- The node, and the frames to and from it */

typedef struct {
    seumhwari_state state;
    uint8_t store[SEUMHWARI_STORE];
    uint8_t id;
} node;

static node now;
static uint8_t out[SEUMHWARI_OUT];
static unsigned out_count;

static void event(const uint8_t bytes[SEUMHWARI_EVENT])
{
    const seumhwari_answer a = seumhwari_event(bytes, SEUMHWARI_EVENT, now.state, out, sizeof out,
                                               now.store, sizeof now.store);
    if (a.number != SEUMHWARI_DONE)
        broken("refused an event by", a.number);
    now.state = a.state;
    out_count = a.count;
}

static void send(unsigned can_id, uint8_t length, const uint8_t *data)
{
    uint8_t bytes[SEUMHWARI_EVENT] = { SEUMHWARI_KIND_FRAME, (uint8_t)can_id, (uint8_t)(can_id >> 8), 0, length };
    memcpy(bytes + 5, data, length);
    event(bytes);
}

static void sample(uint16_t fv)
{
    const uint8_t bytes[SEUMHWARI_EVENT] = { SEUMHWARI_KIND_SAMPLE, (uint8_t)fv, (uint8_t)(fv >> 8) };
    event(bytes);
}

/* The data of the frame that the last event sent on this CAN-ID; an EMCY may stand beside it. */
static const uint8_t *sent_on(unsigned can_id, uint8_t length)
{
    for (unsigned i = 0; i < out_count; i++) {
        const uint8_t *frame = out + i * SEUMHWARI_FRAME;
        if ((frame[0] | (unsigned)frame[1] << 8) == can_id && frame[2] == 0 && frame[3] == length)
            return frame + 4;
    }
    return NULL;
}

static const uint8_t *lss(uint8_t command, uint8_t first, uint8_t second)
{
    const uint8_t data[8] = { command, first, second };
    send(0x7E5, sizeof data, data);
    return sent_on(0x7E4, sizeof data);
}

/* Powers a node on over an empty store and gives it its Node-ID the way an integrator does. */
static void power_on(seumhwari_identity identity, uint8_t id)
{
    const uint8_t reset_communication[2] = { 130, 0 };
    memset(&now, 0, sizeof now);
    const seumhwari_answer a = seumhwari_power_on(identity, out, sizeof out, now.store, sizeof now.store);
    if (a.number != SEUMHWARI_DONE)
        broken("refused to power on by", a.number);
    now.state = a.state;
    now.id = id;
    lss(0x04, 1, 0);
    const uint8_t *reply = lss(0x11, id, 0);
    if (reply == NULL || reply[0] != 0x11 || reply[1] != 0)
        broken("did not take by LSS Node-ID", id);
    send(0, sizeof reset_communication, reset_communication);
    if (sent_on(0x700u + id, 1) == NULL)
        broken("did not boot up as Node-ID", id);
}

static void power_on_plain(uint8_t id)
{
    const seumhwari_identity none = { 0, 0, 0, 0 };
    power_on(none, id);
}

/* ---- SDO, the client's side */

enum { MOST = 128 };

typedef struct {
    uint32_t abort;              /* 0: done */
    unsigned size;
    uint8_t data[MOST];
} transfer;

static uint32_t get32(const uint8_t *from)
{
    return from[0] | (uint32_t)from[1] << 8 | (uint32_t)from[2] << 16 | (uint32_t)from[3] << 24;
}

static uint32_t ask(uint8_t command, unsigned index, unsigned sub, uint32_t data, const uint8_t **reply)
{
    const uint8_t request[8] = { command, (uint8_t)index, (uint8_t)(index >> 8), (uint8_t)sub, (uint8_t)data,
                                 (uint8_t)(data >> 8), (uint8_t)(data >> 16), (uint8_t)(data >> 24) };
    send(0x600u + now.id, sizeof request, request);
    *reply = sent_on(0x580u + now.id, sizeof request);
    if (*reply == NULL)
        broken_at("did not reply to an SDO about", index, sub);
    if ((*reply)[0] != 0x80)
        return 0;
    if (memcmp(*reply + 1, request + 1, 3) != 0 || get32(*reply + 4) == 0)
        broken_at("named something else when it aborted an SDO about", index, sub);
    return get32(*reply + 4);
}

/* Seven bytes a segment; the last one says how many of its own are unused. */
static void upload_segments(transfer *t, unsigned announced)
{
    const uint8_t *reply;
    uint8_t toggle = 0;
    do {
        const uint8_t request[8] = { (uint8_t)(0x60 | toggle) };
        send(0x600u + now.id, sizeof request, request);
        reply = sent_on(0x580u + now.id, sizeof request);
        if (reply == NULL || (reply[0] & 0xF0) != toggle || t->size + 7 > MOST)
            broken("broke off a segmented upload at byte", t->size);
        const unsigned used = 7u - (reply[0] >> 1 & 7u);
        memcpy(t->data + t->size, reply + 1, used);
        t->size += used;
        toggle ^= 0x10;
    } while ((reply[0] & 1) == 0);
    if (t->size != announced)
        broken("announced another size than it sent, which is", t->size);
}

static transfer upload(unsigned index, unsigned sub)
{
    transfer t = { 0, 0, { 0 } };
    const uint8_t *reply;
    t.abort = ask(0x40, index, sub, 0, &reply);
    if (t.abort != 0)
        return t;
    const uint8_t named[3] = { (uint8_t)index, (uint8_t)(index >> 8), (uint8_t)sub };
    if (memcmp(reply + 1, named, sizeof named) != 0)
        broken_at("named something else when asked for", index, sub);
    if (reply[0] == 0x41) {
        upload_segments(&t, get32(reply + 4));
        return t;
    }
    if (reply[0] != 0x4F && reply[0] != 0x4B && reply[0] != 0x43)
        broken_at("answered with an unknown command byte an upload of", index, sub);
    t.size = reply[0] == 0x4F ? 1 : reply[0] == 0x4B ? 2 : 4;
    memcpy(t.data, reply + 4, t.size);
    return t;
}

/* The abort code, 0 if the write was taken. */
static uint32_t download(unsigned index, unsigned sub, unsigned size, uint32_t bits)
{
    const uint8_t *reply;
    const uint8_t command = (uint8_t)(0x23 | (4 - size) << 2);
    const uint8_t taken[8] = { 0x60, (uint8_t)index, (uint8_t)(index >> 8), (uint8_t)sub };
    const uint32_t abort = ask(command, index, sub, bits, &reply);
    if (abort == 0 && memcmp(reply, taken, sizeof taken) != 0)
        broken_at("confirmed in a wrong way a download to", index, sub);
    return abort;
}

/* ---- What document 01 adds to the form of the file */

static bool is(const entry *e, unsigned index, unsigned sub)
{
    return e->index == index && e->sub == sub;
}

/* The word that 1010h or 1011h takes, 0 for every other entry. */
static uint32_t word_of(const entry *e)
{
    if (e->access != RW)
        return 0;
    return e->index == 0x1010 ? 0x65766173 : e->index == 0x1011 ? 0x64616F6C : 0;
}

/* The COB-IDs of the safety pair. */
static bool is_pair(const entry *e)
{
    return is(e, 0x1301, 5) || is(e, 0x1301, 6);
}

/* A set rather than a range: its limits are not all that counts, and it has one code. */
static bool is_set(const entry *e)
{
    return is_pair(e) || is(e, 0x1800, 2);
}

static bool in_hole(const entry *e, uint32_t value)
{
    if (is(e, 0x1800, 2))
        return value > 240 && value < 252;
    return value % 2 == (is(e, 0x1301, 5) ? 0 : 1);
}

/* The pair's defaults go in steps of two until the numbers end, which $NODEID can't say; the file
 * has those of Node-ID 1. */
static uint32_t default_at(const entry *e, uint8_t id)
{
    const uint32_t base = is(e, 0x1301, 5) ? 0xFF : 0x100;
    if (id != 1 && is_pair(e))
        return base + 2u * (id > 64 ? 64u : id);
    return e->relative ? e->standard + id : e->standard;
}

/* Every number of 32 bits, and every Real32, is a double exactly. */
static double worth(unsigned type, uint32_t bits)
{
    float real;
    memcpy(&real, &bits, sizeof real);
    return type == REAL32 ? (double)real : type == INTEGER32 ? (double)(int32_t)bits : (double)bits;
}

/* What a write of these bits, in the right size, has to give on a node fresh from power-on. */
static uint32_t code_for(const entry *e, uint32_t bits)
{
    const double value = worth(e->type, bits);
    const bool above = value > worth(e->type, e->high), below = value < worth(e->type, e->low);
    if (e->access != RW)
        return 0x06010002;
    if (word_of(e) != 0)
        return bits == word_of(e) ? 0 : 0x08000020;
    if (e->type == REAL32 && (bits >> 23 & 0xFF) == 0xFF)
        return 0x06090030;
    if (is_set(e))
        return above || below || in_hole(e, bits) ? 0x06090030 : 0;
    if (above || below)
        return above ? 0x06090031 : 0x06090032;
    if ((is(e, 0x13FE, 0) || is(e, 0x51FE, 0)) && bits == 0xA5)
        return 0x06040043;       /* nothing is signed yet */
    return 0;
}

/* ---- Reads */

/* Into one of a few buffers, so that a message can show several at once. */
static const char *shown(unsigned type, uint32_t bits)
{
    static char texts[4][48];
    static unsigned turn;
    char *text = texts[turn++ % 4];
    if (type == REAL32)
        snprintf(text, sizeof texts[0], "%.9g (%08Xh)", worth(type, bits), bits);
    else
        snprintf(text, sizeof texts[0], "%0*Xh", (int)(2 * size_of(type)), bits);
    return text;
}

static void check_string(entry *e, const transfer *t)
{
    if (t->size != strlen(e->text) || memcmp(t->data, e->text, t->size) != 0)
        ENTRY_DIFFERS(e, "expected the text `%s`, the node has `%.*s`", e->text, (int)t->size, (const char *)t->data);
}

static void check_read(entry *e)
{
    const transfer t = upload(e->index, e->sub);
    if (t.abort != 0) {
        ENTRY_DIFFERS(e, "expected to be read, came abort %08Xh", t.abort);
    } else if (e->type == VISIBLE_STRING) {
        check_string(e, &t);
    } else if (t.size != size_of(e->type)) {
        ENTRY_DIFFERS(e, "expected %u bytes for DataType %04Xh, came %u", size_of(e->type), e->type, t.size);
    } else if (e->given && get32(t.data) != default_at(e, now.id)) {
        ENTRY_DIFFERS(e, "default at Node-ID %u: expected %s, came %s", now.id, shown(e->type, default_at(e, now.id)),
                      shown(e->type, get32(t.data)));
    }
}

/* A live value may go without a default; what is kept or written may not. */
static void check_given(entry *e)
{
    if (!e->given && (e->access != RO || e->type == VISIBLE_STRING))
        ENTRY_DIFFERS(e, "expected a DefaultValue, came none");
    else if (e->relative && is_pair(e))
        ENTRY_DIFFERS(e, "expected the default of Node-ID 1, came %s, which is false at other Node-IDs", e->text);
    else if (e->access == RW && e->limited == (word_of(e) != 0))
        ENTRY_DIFFERS(e, "expected %s", e->limited ? "no limits for a word" : "LowLimit and HighLimit");
    else if (e->access != RW && e->limited)
        ENTRY_DIFFERS(e, "expected no limits where nothing can be written");
}

/* const says that a value never moves, ro that it does. So two nodes are read that differ in all
 * that can differ: identity, Node-ID, sample, and scaling so wide that the reading is capped. */
static void check_moves(void)
{
    const seumhwari_identity named = { 1, 2, 3, 4 };
    const uint32_t million = 0x49742400;
    power_on_plain(1);
    const node plain = now;
    power_on(named, 65);
    if (download(0x6123, 1, 4, million) != 0 || download(0x6132, 1, 1, 4) != 0)
        broken_at("did not take the settings of a capped reading at", 0x6123, 1);
    sample(12000);
    const node other = now;
    for (int i = 0; i < entry_count; i++) {
        entry *e = &entries[i];
        now = plain;
        const transfer here = upload(e->index, e->sub);
        now = other;
        const transfer there = upload(e->index, e->sub);
        const bool moved = memcmp(here.data, there.data, MOST) != 0;
        if (!e->named && e->access != RW && moved != (e->access == RO))
            ENTRY_DIFFERS(e, "expected %s, since the value %s; came %s", moved ? "ro" : "const",
                          moved ? "moves" : "never moves", e->access == RO ? "ro" : "const");
    }
}

/* Four bytes look alike whatever their type. The two readings tell theirs all the same: before the
 * first sample the pressure is below zero, and only a Real32 and an Integer32 are then a power of
 * ten apart. */
static void check_readings(void)
{
    entry *real = find_entry(0x6130, 1), *integer = find_entry(0x9130, 1);
    if (real == NULL || integer == NULL)
        return;                  /* check_complete says so */
    power_on_plain(1);
    double due = worth(real->type, get32(upload(0x6130, 1).data));
    const double came = worth(integer->type, get32(upload(0x9130, 1).data));
    for (unsigned digits = upload(0x6132, 1).data[0]; digits > 0; digits--)
        due *= 10;
    if (due != came)
        ENTRY_DIFFERS(integer, "DataType %04Xh makes it %.9g, expected %.9g by 6130h:01 with DataType %04Xh",
                      integer->type, came, due, real->type);
}

/* ---- Writes */

static const char *outcome(uint32_t abort)
{
    static char texts[4][24];
    static unsigned turn;
    char *text = texts[turn++ % 4];
    snprintf(text, sizeof texts[0], abort == 0 ? "accepted" : "abort %08Xh", abort);
    return text;
}

/* One write on a node that nothing else was written to, and a look at what it left behind. */
static void check_write(entry *e, const node *fresh, unsigned size, uint32_t bits, uint32_t expected)
{
    now = *fresh;
    const uint32_t before = get32(upload(e->index, e->sub).data);
    const uint32_t came = download(e->index, e->sub, size, bits);
    const uint32_t after = get32(upload(e->index, e->sub).data);
    const uint32_t due = came == 0 && word_of(e) == 0 ? bits : before;
    if (came != expected)
        ENTRY_DIFFERS(e, "write of %s, size %u: expected %s, came %s", shown(e->type, bits), size, outcome(expected),
                      outcome(came));
    else if (after != due)
        ENTRY_DIFFERS(e, "after a write of %s (%s): expected %s, came %s", shown(e->type, bits), outcome(came),
                      shown(e->type, due), shown(e->type, after));
}

static void check_value(entry *e, const node *fresh, uint32_t bits)
{
    if (!e->named)
        check_write(e, fresh, size_of(e->type), bits, code_for(e, bits));
}

/* Read-only comes before the size: nothing that can't be written is told about its length. */
static void check_sizes(entry *e, const node *fresh)
{
    const unsigned own = size_of(e->type);
    const uint32_t bits = default_at(e, fresh->id);
    for (unsigned size = 1; size <= 4 && !e->named; size++) {
        if (e->access != RW)
            check_write(e, fresh, size, bits, 0x06010002);
        else if (size != own)
            check_write(e, fresh, size, bits, size > own ? 0x06070012 : 0x06070013);
    }
}

static void check_reals(entry *e, const node *fresh)
{
    static const uint32_t special[] = { 0, 0x80000000, 1, 0x3EC28F5C, 0x7F7FFFFF, 0xFF7FFFFF, 0x7F800000, 0xFF800000,
                                        0x7FC00000, 0xFFC00000, 0x7F800001 };
    for (unsigned i = 0; i < sizeof special / sizeof special[0]; i++)
        check_value(e, fresh, special[i]);
    for (int step = -1; step <= 1; step++) {                 /* a limit and its two neighbours */
        check_value(e, fresh, e->low + (uint32_t)step);
        check_value(e, fresh, e->high + (uint32_t)step);
    }
}

/* Values past the type's end wrap to its other end; code_for knows what they then deserve. */
static void check_wholes(entry *e, const node *fresh)
{
    const uint32_t mask = greatest(e->type);
    for (uint32_t value = 0; value <= (e->type == UNSIGNED16 ? 2u : mask < 0x200 ? mask : 0x200u); value++)
        check_value(e, fresh, value);
    for (unsigned bit = 0; bit < 8 * size_of(e->type); bit++) {
        check_value(e, fresh, (uint32_t)1 << bit);
        check_value(e, fresh, (e->low ^ (uint32_t)1 << bit) & mask);
    }
    for (int step = -1; step <= 1; step++) {
        check_value(e, fresh, (e->low + (uint32_t)step) & mask);
        check_value(e, fresh, (e->high + (uint32_t)step) & mask);
    }
    check_value(e, fresh, mask);
}

/* A tool that downloads a whole file would fail at an entry that refuses its own default, unless
 * ObjFlags bit 0 tells it to leave that entry out. */
static void check_flags(entry *e, const node *fresh)
{
    now = *fresh;
    const uint32_t came = download(e->index, e->sub, size_of(e->type), default_at(e, fresh->id));
    if (e->flags != (came == 0 ? 0u : 1u))
        ENTRY_DIFFERS(e, "its own default is %s, expected ObjFlags %u, came %u", outcome(came), came == 0 ? 0u : 1u,
                      e->flags);
}

static void check_writes(entry *e, const node *fresh)
{
    static const uint32_t words[] = { 0, 1, 0x65766173, 0x64616F6C, 0x73617665, 0x6C6F6164, 0xFFFFFFFF };
    check_sizes(e, fresh);
    if (e->access != RW)
        return;
    for (unsigned i = 0; i < sizeof words / sizeof words[0] && word_of(e) != 0; i++)
        check_value(e, fresh, words[i]);
    if (word_of(e) == 0 && e->type == REAL32)
        check_reals(e, fresh);
    else if (word_of(e) == 0)
        check_wholes(e, fresh);
    if (!e->named)
        check_flags(e, fresh);
}

static void check_entries(uint8_t id)
{
    power_on_plain(id);
    const node fresh = now;
    for (int i = 0; i < entry_count; i++) {
        now = fresh;
        if (!entries[i].named)
            check_read(&entries[i]);
        if (!entries[i].named)
            check_writes(&entries[i], &fresh);
    }
}

/* ---- Completeness, mapping and the device */

static void check_found(unsigned index, unsigned sub)
{
    entry *e = find_entry(index, sub);
    const uint32_t expected = find_object(index) == NULL ? 0x06020000 : e == NULL ? 0x06090011 : 0;
    const uint32_t came = upload(index, sub).abort;
    if (came == expected || (e != NULL && e->named))
        return;
    const object *o = find_object(index);
    DIFFERS(o == NULL ? 0 : o->line, "%04Xh:%02X: the file %s it: expected %s, came %s", index, sub,
            e == NULL ? "does not list" : "lists", expected == 0 ? "a value" : outcome(expected),
            came == 0 ? "a value" : outcome(came));
}

static void check_complete(void)
{
    power_on_plain(1);
    for (unsigned index = 0; index <= 0xFFFF; index++)
        check_found(index, 0);
    for (int i = 0; i < object_count; i++)
        for (unsigned sub = 1; sub <= 0xFF; sub++)
            check_found(objects[i].index, sub);
}

/* Bits of the entry that the node itself maps, by 1A00h into the TPDO or by 1381h into the SRDO. */
static unsigned mapped_bits(const entry *e)
{
    static const unsigned mappings[] = { 0x1A00, 0x1381 };
    for (unsigned i = 0; i < 2; i++) {
        const unsigned top = upload(mappings[i], 0).data[0];
        for (unsigned sub = 1; sub <= top; sub++) {
            const uint32_t map = get32(upload(mappings[i], sub).data);
            if (map >> 8 == (e->index << 8 | e->sub))
                return map & 0xFF;
        }
    }
    return 0;
}

static void check_mapping(void)
{
    power_on_plain(1);
    for (int i = 0; i < entry_count; i++) {
        entry *e = &entries[i];
        const unsigned bits = mapped_bits(e);
        if (e->mapping != (bits == 0 ? 0u : 1u))
            ENTRY_DIFFERS(e, "expected PDOMapping %u, came %u", bits == 0 ? 0u : 1u, e->mapping);
        else if (bits != 0 && bits != 8 * size_of(e->type))
            ENTRY_DIFFERS(e, "the node maps %u bits of it, its DataType has %u", bits, 8 * size_of(e->type));
    }
}

static unsigned objects_between(unsigned first, unsigned last)
{
    unsigned count = 0;
    for (int i = 0; i < object_count; i++)
        count += objects[i].index >= first && objects[i].index <= last;
    return count;
}

static void check_fact(const char *key, uint32_t expected)
{
    const section *s = find_section("DeviceInfo");
    if (number(s, key) != expected)
        DIFFERS(need(s, key)->line, "%s: expected %u, came %s", key, expected, need(s, key)->text);
}

/* A bit rate is supported when LSS takes its place in the standard table. */
static void check_bit_rates(void)
{
    static const char *const keys[] = { "BaudRate_1000", "BaudRate_800", "BaudRate_500", "BaudRate_250",
                                        "BaudRate_125", NULL, "BaudRate_50", "BaudRate_20", "BaudRate_10" };
    power_on_plain(1);
    lss(0x04, 1, 0);
    for (uint8_t place = 0; place < sizeof keys / sizeof keys[0]; place++) {
        const uint8_t *reply = lss(0x13, 0, place);
        if (reply == NULL || reply[0] != 0x13)
            broken("did not answer LSS about bit timing index", place);
        if (keys[place] != NULL)
            check_fact(keys[place], reply[1] == 0);
    }
}

static void check_device(void)
{
    const section *s = find_section("DeviceInfo");
    power_on_plain(1);
    check_fact("VendorNumber", get32(upload(0x1018, 1).data));
    check_fact("ProductNumber", get32(upload(0x1018, 2).data));
    check_fact("RevisionNumber", get32(upload(0x1018, 3).data));
    check_fact("NrOfRXPDO", objects_between(0x1400, 0x15FF));
    check_fact("NrOfTXPDO", objects_between(0x1800, 0x19FF));
    check_fact("LSS_Supported", 1);                          /* it gave every node here its Node-ID */
    const transfer name = upload(0x1008, 0);
    if (name.size != strlen(need(s, "ProductName")->text)
        || memcmp(name.data, need(s, "ProductName")->text, name.size) != 0)
        DIFFERS(need(s, "ProductName")->line, "ProductName: expected %.*s, as in 1008h", (int)name.size,
                (const char *)name.data);
    check_bit_rates();
}

int main(int count, char **words)
{
    static const uint8_t ids[] = { 1, 2, 64, 65, 127 };
    if (count != 2) {
        fprintf(stderr, "usage: eds FILE\n");
        return EXIT_FAILURE;
    }
    path = words[1];
    read_file();
    understand();
    check_lists();
    check_records();
    for (int i = 0; i < entry_count; i++)
        check_given(&entries[i]);
    for (unsigned i = 0; i < sizeof ids; i++)
        check_entries(ids[i]);
    check_moves();
    check_readings();
    check_mapping();
    check_complete();
    check_device();
    if (differences == 0)
        printf("eds: %d entries, no difference\n", entry_count);
    else
        printf("eds: %d entries, differences: %u\n", entry_count, differences);
    return differences == 0 ? EXIT_SUCCESS : EXIT_FAILURE;
}
