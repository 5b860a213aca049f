/*
 * Runs the engine through its five entries, on Small and on Large: first the
 * checked examples of document 01, then longer runs; and on Meter, what ticket
 * 10 of document 02 says of it. Every step prints a line:
 *
 *     product | step | what was sent | returned number | what came back
 *
 * What the documents fix is checked here, and at the first thing that is wrong
 * the program says so and ends with status 1. The lines are compared with
 * examples.expected as well, so that nothing that is only shown moves unseen.
 */
#include "bench.h"

/* example 3's bridge, with which most runs begin */
#define GOOD_BRIDGE "01 01 00 8000 1400 0200 0F00"

/* ---- the checked examples of document 01 ---- */

static void example_1(void)
{
    power_on(product);
    command("E1 the counter is set to 254", SET, ONT, 0, "8000 FE", "00");
    command("E1 an accepted Set", SET, UNI, 0x0101, "8000 07", "00");
    check_counter("E1 the counter is 255", 255);
    command("E1 an accepted Set", SET, UNI, 0x0101, "8000 07", "00");
    check_counter("E1 the counter is 1", 1);
}

static void example_3(void)
{
    power_on(product);
    command("E3", CREATE, PROFILE, 1, GOOD_BRIDGE, "00");
    command("E3 it is stored", GET, PROFILE, 1, "FE00",
            "00 FE00 " GOOD_BRIDGE);
}

static void example_4(void)
{
    power_on(product);
    command("E4 MaxAge 05FF", CREATE, PROFILE, 1,
            "01 01 00 8000 05FF 0200 0F00", "03 0800");
    command("E4 MaxAge 0600", CREATE, PROFILE, 2,
            "01 01 00 8000 0600 0200 0F00", "00");
    command("E4 MaxAge 2800", CREATE, PROFILE, 3,
            "01 01 00 8000 2800 0200 0F00", "00");
    command("E4 MaxAge 2801", CREATE, PROFILE, 4,
            "01 01 00 8000 2801 0200 0F00", "03 0800");
}

/* MAC 6, Priority 2, root 8, cost 4, count 1, port 2, HelloTime 2: 25 bytes */
static void examples_5_to_7(void)
{
    power_on(product);
    command("E5 to E7 a bridge", CREATE, PROFILE, 1, GOOD_BRIDGE, "00");
    if (product == GWZ_SMALL) {
        command("E7", GET, BRIDGE, 1, "FE00",
                "09 0000 0000000000000000000000000000000000000000"
                "0000000000 0200");
        return;
    }
    command("E5", GET, BRIDGE, 1, "FE00",
            "00 FE00 000000000000 8000 0000000000000000 00000000 00 0000"
            "0200");
    command("E6", GET, BRIDGE, 1, "FF00", "03");
}

/* every reported content ends in a byte that isn't zero: lengths show */
static void fill_bridge(void)
{
    report("E10 MAC", BRIDGE, 1, 1, "A1A2A3A4A5A6", GWZ_QUIET);
    report("E10 root", BRIDGE, 1, 3, "B1B2B3B4B5B6B7B8", GWZ_QUIET);
    report("E10 cost", BRIDGE, 1, 4, "C1C2C3C4", GWZ_QUIET);
    report("E10 root port", BRIDGE, 1, 6, "D1D2", GWZ_QUIET);
    if (product == GWZ_LARGE) {
        report("E10 HelloTime", BRIDGE, 1, 7, "E1E2", GWZ_QUIET);
        report("E10 ForwardDelay", BRIDGE, 1, 8, "F1F2", GWZ_QUIET);
    }
}

/* what 46 has up to its root port: 23 bytes */
#define FILLED_BRIDGE "A1A2A3A4A5A6 8000 B1B2B3B4B5B6B7B8 C1C2C3C4 00 D1D2"

static void example_10(void)
{
    power_on(product);
    command("E10 a bridge", CREATE, PROFILE, 1, GOOD_BRIDGE, "00");
    fill_bridge();
    if (product == GWZ_SMALL) {
        command("E10 upload", UPLOAD, ONT, 0, "", "0003");
        command("E10 one section of 23 bytes", UPLOAD_NEXT, ONT, 0, "0002",
                "002E 0001 FC00" FILLED_BRIDGE);
        return;
    }
    command("E10 upload", UPLOAD, ONT, 0, "", "0007");
    command("E10 a section of 25 bytes", UPLOAD_NEXT, ONT, 0, "0005",
            "002E 0001 FE00" FILLED_BRIDGE "E1E2");
    command("E10 a section of 2 bytes", UPLOAD_NEXT, ONT, 0, "0006",
            "002E 0001 0100 F1F2");
}

/* E11 is of a fresh Small; a fresh Large shows its first contents */
static void example_11(void)
{
    power_on(product);
    if (product == GWZ_SMALL) {
        command("E11 upload", UPLOAD, ONT, 0, "", "0001");
        command("E11 the section", UPLOAD_NEXT, ONT, 0, "0000",
                "000B 0101 FC00");
        return;
    }
    command("as E11, four UNIs", UPLOAD, ONT, 0, "", "0004");
    command("as E11, the last of them", UPLOAD_NEXT, ONT, 0, "0003",
            "000B 0104 FFF8 00000000000000 05EE 00 0000 02 00 00");
}

/* byte for byte, as the document prints it */
static void example_12(void)
{
    uint8_t wanted[MESSAGE] = { 0x12, 0x34, 0x29, 0x0A, 0x00, 0x02, 0x00,
                                0x00, 0x00, 0x80, 0x00 };

    wanted[43] = 0x28;
    power_on(product);
    compose(GET, ONT, 0, "8000");
    put2(now.message, 0x1234);
    send_composed("E12", "00 8000");
    check(memcmp(now.reply, wanted, MESSAGE) == 0, "not the 48 bytes of E12");
}

static void example_14(void)
{
    power_on(product);
    command("E14 a bridge", CREATE, PROFILE, 1, GOOD_BRIDGE, "00");
    command("E14 upload", UPLOAD, ONT, 0, "",
            product == GWZ_SMALL ? "0003" : "0007");
}

static void examples(void)
{
    example_1();
    example_3();
    example_4();
    examples_5_to_7();
    example_10();
    example_11();
    example_12();
    example_14();
}

/* ---- results ---- */

/* all 32 message numbers to one class, on an instance that isn't there */
static void results_of(unsigned class_id, const char *wanted)
{
    uint8_t results[32], v[32];
    char hex[65];

    begin_run("results by message number");
    unhex(wanted, v);
    for (unsigned n = 0; n < 32; n++) {
        pass(n, class_id, 0xEEEE, v, 0);
        results[n] = now.reply[8];
        check(n == CREATE || shows_bytes(results + n, 1), "wrong contents");
    }
    say("numbers 0 to 31 of class %u", class_id);
    line_text(0, "%s", to_hex(results, 32, hex));
    check(memcmp(results, v, 32) == 0, "wrong result");
}

/* not built 2; class 4; command not for this class 2; instance 5 */
#define NOT_BUILT_FROM_16 "02020202020202020202020202020202"

static void results_by_number(void)
{
    power_on(product);
    results_of(99, "02020202040204020404020000000004" NOT_BUILT_FROM_16);
    results_of(ONT, "02020202020202020505020000000005" NOT_BUILT_FROM_16);
    results_of(UNI, "02020202020202020505020000000002" NOT_BUILT_FROM_16);
    results_of(PROFILE, "02020202030205020505020000000002" NOT_BUILT_FROM_16);
    results_of(BRIDGE, "02020202020202020505020000000002" NOT_BUILT_FROM_16);
    results_of(PORT, "02020202030205020505020000000002" NOT_BUILT_FROM_16);
    check_counter("refusals move no counter", 0);
}

static void refused_creates(void)
{
    power_on(product);
    command("every rule of a 45 broken", CREATE, PROFILE, 1,
            "02 02 02 FFFF 05FF 00FF 03FF", "03 EE00");
    command("a bridge", CREATE, PROFILE, 1, GOOD_BRIDGE, "00");
    command("it exists, and is bad", CREATE, PROFILE, 1, "02", "07");
    command("every rule of a 47 broken", CREATE, PORT, 1,
            "0002 01 03 0102 0100 0000 02 02 02", "03 AF80");
    command("a pointer to no UNI", CREATE, PORT, 1,
            "0001 01 01 0105 0080 0001 00 00 00", "03 1000");
    command("a UNI that Large alone has", CREATE, PORT, 1,
            "0001 01 01 0104 0080 0001 00 00 00",
            product == GWZ_SMALL ? "03 1000" : "00");
    command("any pointer with type 2", CREATE, PORT, 2,
            "0001 01 02 0105 0080 0001 00 00 00", "00");
    command("attribute 9 is 1", CREATE, PORT, 3,
            "0001 01 02 0105 0080 0001 00 00 01",
            product == GWZ_SMALL ? "03 0080" : "00");
}

/* all or nothing: the good attribute 1 of a refused Set isn't stored */
static void refused_sets(void)
{
    power_on(product);
    command("Set: mask zero", SET, UNI, 0x0101, "", "03");
    command("Set: unsupported and unwritable", SET, UNI, 0x0101, "C207",
            product == GWZ_SMALL ? "09 0207 4000" : "09 0007 4200");
    command("Set: a bad content", SET, UNI, 0x0101, "9000 07 01",
            "09 0000 1000");
    command("Set: all bad contents", SET, UNI, 0x0101, "9800 07 01 02",
            "09 0000 1800");
    command("nothing of them is stored", GET, UNI, 0x0101, "FC00",
            "00 FC00");
    check_counter("the counter stands", 0);
    command("a bridge", CREATE, PROFILE, 1, GOOD_BRIDGE, "00");
    command("Set: nothing of a 46 is writable", SET, BRIDGE, 1, "FC00",
            "09 0000 FC00");
}

static void refused_gets(void)
{
    power_on(product);
    command("Get: mask zero", GET, UNI, 0x0101, "", "03");
    command("Get: unsupported", GET, UNI, 0x0101, "8207",
            product == GWZ_SMALL
            ? "09 0000 00000000000000000000000000000000000000000000000000"
              "0207"
            : "09 0000 00000000000000000000000000000000000000000000000000"
              "0007");
    command("Get: a UNI that Large alone has", GET, UNI, 0x0104, "8000",
            product == GWZ_SMALL ? "05" : "00 8000");
    command("Get: the counter has one instance", GET, ONT, 1, "8000", "05");
}

/* ---- legal contents: the bounds of every rule, by Sets ---- */

struct bound {
    unsigned class_id, attribute, size;
    unsigned values[4];
    const char *results;
    int only_large;
};

static const struct bound bounds[] = {
    { UNI, 4, 1, { 0, 1, 3, 4 }, "0909", 0 },
    { UNI, 5, 1, { 0, 1, 2, 255 }, "0099", 0 },
    { UNI, 9, 1, { 0, 2, 3, 255 }, "0099", 1 },
    { UNI, 11, 1, { 0, 2, 3, 255 }, "0099", 1 },
    { UNI, 12, 1, { 0, 1, 2, 255 }, "0099", 1 },
    { PROFILE, 1, 1, { 0, 1, 2, 255 }, "0099", 0 },
    { PROFILE, 2, 1, { 0, 1, 2, 255 }, "0099", 0 },
    { PROFILE, 3, 1, { 0, 1, 2, 255 }, "0099", 0 },
    { PROFILE, 4, 2, { 0, 1, 0x8000, 0xFFFF }, "0000", 0 },
    { PROFILE, 5, 2, { 0x05FF, 0x0600, 0x2800, 0x2801 }, "9009", 0 },
    { PROFILE, 6, 2, { 0x00FF, 0x0100, 0x0A00, 0x0A01 }, "9009", 0 },
    { PROFILE, 7, 2, { 0x03FF, 0x0400, 0x1E00, 0x1E01 }, "9009", 0 },
    { PORT, 5, 2, { 0, 255, 256, 0xFFFF }, "0099", 0 },
    { PORT, 6, 2, { 0, 1, 256, 0xFFFF }, "9000", 0 },
    { PORT, 7, 1, { 0, 1, 2, 255 }, "0099", 0 },
    { PORT, 8, 1, { 0, 1, 2, 255 }, "0099", 0 },
    { PORT, 9, 1, { 0, 1, 2, 255 }, "0099", 1 },
};

static char try_value(const struct bound *b, unsigned value)
{
    uint8_t v[4];
    unsigned instance = b->class_id == UNI ? 0x0101 : 1;

    put2(v, 0x8000u >> (b->attribute - 1));
    put2(v + 2, b->size == 1 ? value << 8 : value);
    pass(SET, b->class_id, instance, v, 2 + b->size);
    return (char)('0' + now.reply[8]);
}

static void try_bound(const struct bound *b)
{
    char results[5] = { 0 };

    for (unsigned i = 0; i < 4; i++)
        results[i] = try_value(b, b->values[i]);
    say("Set class %u attribute %u to %u, %u, %u, %u", b->class_id,
        b->attribute, b->values[0], b->values[1], b->values[2], b->values[3]);
    line_text(0, "results %s", results);
    check(strcmp(results, b->results) == 0, "wrong result");
}

static void legal_contents(void)
{
    power_on(product);
    command("a bridge", CREATE, PROFILE, 1, GOOD_BRIDGE, "00");
    command("a port", CREATE, PORT, 1,
            "0001 01 01 0101 0080 0001 00 00 00", "00");
    begin_run("legal contents");
    for (size_t i = 0; i < sizeof bounds / sizeof *bounds; i++)
        if (product == GWZ_LARGE || !bounds[i].only_large)
            try_bound(&bounds[i]);
}

/* ---- a full table ---- */

enum { BRIDGES = 12, PORTS = 28, PLACES = BRIDGES + PORTS };

/* rising with j, from 0 to 0xFFFF */
static unsigned bridge_number(unsigned j)
{
    return j * 0xFFFF / (BRIDGES - 1);
}

static unsigned port_number(unsigned p)
{
    return p * 0xFFFF / (PORTS - 1);
}

/* the contents go from one bound of each rule to the other */
static void bridge_values(unsigned j, uint8_t *v)
{
    v[0] = j & 1;
    v[1] = j >> 1 & 1;
    v[2] = j >> 2 & 1;
    put2(v + 3, 0x1111 * j);
    put2(v + 5, 0x0600 + j * 0x2200 / (BRIDGES - 1));
    put2(v + 7, 0x0100 + j * 0x0900 / (BRIDGES - 1));
    put2(v + 9, 0x0400 + j * 0x1A00 / (BRIDGES - 1));
}

static void port_values(unsigned p, uint8_t *v)
{
    put2(v, bridge_number(p % BRIDGES));
    v[2] = (uint8_t)p;
    v[3] = p & 1 ? 2 : 1;
    put2(v + 4, p & 1 ? 0x9000 + p : 0x0101);
    put2(v + 6, p * 255 / (PORTS - 1));
    put2(v + 8, 1 + p * 0xFFFE / (PORTS - 1));
    v[10] = p & 1;
    v[11] = p >> 1 & 1;
    v[12] = product == GWZ_LARGE ? p >> 2 & 1 : 0;
}

static unsigned ports_of(unsigned j)
{
    return PORTS / BRIDGES + (j < PORTS % BRIDGES);
}

/* not in rising order: what an upload shows must not hang on it */
static void create_bridges(void)
{
    uint8_t v[11];

    for (unsigned k = 0; k < BRIDGES; k++) {
        unsigned j = (5 * k + 3) % BRIDGES;
        bridge_values(j, v);
        pass_done(CREATE, PROFILE, bridge_number(j), v, sizeof v);
    }
}

static void create_ports(void)
{
    uint8_t v[13];

    for (unsigned k = 0; k < PORTS; k++) {
        unsigned p = (11 * k + 5) % PORTS;
        port_values(p, v);
        pass_done(CREATE, PORT, port_number(p), v, sizeof v);
    }
}

static void fill_table(const char *name)
{
    begin_run(name);
    create_bridges();
    create_ports();
    say("%d Creates of 45, %d of 47", BRIDGES, PORTS);
    line_text(0, "accepted %u", run_count);
}

static void no_41st(void)
{
    command("no place for a 41st", CREATE, PROFILE, 0x1234, GOOD_BRIDGE,
            "01");
    command("no place for a 41st", CREATE, PORT, 0x1234,
            "0000 01 02 0000 0000 0001 00 00 00", "01");
    command("full, and bad: bad counts", CREATE, PROFILE, 0x1234, "",
            "03 0E00");
    command("full, and it exists", CREATE, PROFILE, 0xFFFF, GOOD_BRIDGE,
            "07");
    check_counter("the counter moved 40 times", PLACES);
}

/* ---- what an upload of that table must show ---- */

static uint8_t sections[80][CONTENTS];
static unsigned section_count;

/* a further section; its values are filled in by the caller */
static uint8_t *want(unsigned class_id, unsigned instance, unsigned mask)
{
    uint8_t *v = sections[section_count++];

    memset(v, 0, CONTENTS);
    put2(v, class_id);
    put2(v + 2, instance);
    put2(v + 4, mask);
    return v + 6;
}

static void want_unis(void)
{
    if (product == GWZ_SMALL) {
        want(UNI, 0x0101, 0xFC00);
        return;
    }
    for (unsigned i = 0x0101; i <= 0x0104; i++) {
        uint8_t *v = want(UNI, i, 0xFFF8);
        put2(v + 7, 1518);
        v[12] = 2;
    }
}

/* its profile's Priority, how many ports it has; Large: what Create carried */
static void want_bridge(unsigned j)
{
    uint8_t *v, profile[11];

    bridge_values(j, profile);
    v = want(BRIDGE, bridge_number(j), product == GWZ_SMALL ? 0xFC00 : 0xFE00);
    memcpy(v + 6, profile + 3, 2);
    v[20] = (uint8_t)ports_of(j);
    if (product == GWZ_SMALL)
        return;
    memcpy(v + 23, profile + 7, 2);
    v = want(BRIDGE, bridge_number(j), 0x0100);
    memcpy(v, profile + 9, 2);
}

static void want_port(unsigned p)
{
    uint8_t *v, port[13];

    port_values(p, port);
    v = want(PORT, port_number(p), product == GWZ_SMALL ? 0xFF00 : 0xFF80);
    memcpy(v, port, product == GWZ_SMALL ? 12 : 13);
}

/* by class, then number */
static void want_table(void)
{
    section_count = 0;
    want_unis();
    for (unsigned j = 0; j < BRIDGES; j++)
        bridge_values(j, want(PROFILE, bridge_number(j), 0xFE00));
    for (unsigned j = 0; j < BRIDGES; j++)
        want_bridge(j);
    for (unsigned p = 0; p < PORTS; p++)
        want_port(p);
}

static void ask_for_upload(const char *name)
{
    char hex[16];

    sprintf(hex, "%04X", section_count);
    command(name, UPLOAD, ONT, 0, "", hex);
}

static uint32_t section_sum;

/* fetches one section: is it the wanted one? */
static int fetch(unsigned n)
{
    uint8_t index[2];

    put2(index, n);
    compose_bytes(UPLOAD_NEXT, ONT, 0, index, 2);
    check(handle(MESSAGE) == GWZ_ANSWERED, "dropped");
    section_sum = add_to(section_sum, now.reply + 8, CONTENTS);
    return memcmp(now.reply + 8, sections[n], CONTENTS) == 0;
}

static void begin_sections(const char *name)
{
    begin_run(name);
    section_sum = 0;
}

static void line_of_sections(const char *what)
{
    say("%s", what);
    line_text(0, "sections %u, sum %08lX", section_count,
              (unsigned long)section_sum);
}

static void fetch_all(const char *name)
{
    begin_sections(name);
    for (unsigned n = 0; n < section_count; n++)
        check(fetch(n), "wrong section");
    line_of_sections("every Upload next");
}

/* Nexts may come in any order, and again */
static void fetch_backwards(const char *name)
{
    begin_sections(name);
    for (unsigned n = section_count; n-- > 0;)
        check(fetch(n), "wrong section");
    line_of_sections("every Upload next, the last first");
}

/* ---- changes while an upload is half sent ---- */

/* a report that the exchange is told of */
static void link_report(unsigned attribute, unsigned content)
{
    now.content[0] = (uint8_t)content;
    check(tell_attribute(UNI, 0x0101, attribute, 1) == GWZ_ANSWERED,
          "not sent");
    check_avc(attribute, 1);
    add_to_run();
}

static void set_number(unsigned class_id, unsigned instance, unsigned mask,
                       unsigned value, size_t size)
{
    uint8_t v[4];

    put2(v, mask);
    put2(v + 2, size == 1 ? value << 8 : value);
    pass_done(SET, class_id, instance, v, 2 + size);
}

static void new_mac(unsigned j)
{
    memset(now.content, (int)(0x40 + j), 6);
    check(tell_attribute(BRIDGE, bridge_number(j), 1, 6) == GWZ_QUIET,
          "not quiet");
}

/* one port is deleted and made again, with another PortNum */
static void other_port(unsigned n)
{
    uint8_t v[13];

    port_values(PORTS - 1, v);
    v[2] = 99;
    if (n == 8)
        pass_done(DELETE, PORT, 0xFFFF, v, 0);
    if (n == 16)
        pass_done(CREATE, PORT, 0xFFFF, v, 13);
}

/* after section n: the link, and one of four changes in turn */
static void disturb(unsigned n)
{
    unsigned k = n / 4;

    link_report(6, (n + 1) & 1);
    link_report(2, n + 1);
    if (n % 4 == 0)
        set_number(UNI, 0x0101, 0x0800, k & 1, 1);
    else if (n % 4 == 1)
        set_number(PROFILE, bridge_number(k % BRIDGES), 0x1000, 0xA000 + k, 2);
    else if (n % 4 == 2)
        set_number(PORT, port_number(k), 0x0400, 0x1234, 2);
    else
        new_mac(k % BRIDGES);
    other_port(n);
}

static void fetch_disturbed(void)
{
    begin_sections("the table moves under the upload");
    for (unsigned n = 0; n < section_count; n++) {
        check(fetch(n), "not the frozen section");
        disturb(n);
    }
    line_of_sections("every Upload next, reports and Sets in between");
    step_name = "what was sent meanwhile";
    say("reports and Sets");
    line_text(0, "messages %u, sum %08lX", run_count, (unsigned long)run_sum);
}

/*
 * A new upload shows the changes: the UNI, every 45 and 46 (of Large's two
 * sections the first), the ports whose cost was set, and the one made again.
 */
static void fetch_changed(const char *name)
{
    unsigned changed = 0;

    begin_sections(name);
    for (unsigned n = 0; n < section_count; n++)
        changed += fetch(n) ? 0 : 1;
    line_of_sections("every Upload next");
    check(changed == 1 + 2 * BRIDGES + (section_count + 1) / 4 + 1,
          "wrong number of changed sections");
}

static void uploads(void)
{
    char past[16];

    want_table();
    ask_for_upload("upload of the full table");
    fetch_all("the whole upload");
    ask_for_upload("upload again");
    fetch_disturbed();
    check_counter("every Set moved the counter",
                  PLACES + 2 + section_count - section_count / 4);
    fetch_backwards("the same sections again");
    sprintf(past, "%04X", section_count);
    command("an index past the end", UPLOAD_NEXT, ONT, 0, past, "");
    command("an index far past it", UPLOAD_NEXT, ONT, 0, "FFFF", "");
    command("a Next of another class", UPLOAD_NEXT, UNI, 0, "", "");
    command("an upload of another instance", UPLOAD, ONT, 1, "", "");
    fetch_all("the walk stands");
    ask_for_upload("a later upload");
    fetch_changed("it shows the changes");
}

/* ---- Delete, and Create again ---- */

/* bridge 3 has the number 45D1, and three ports name it */
static void delete_and_create(void)
{
    command("Delete a bridge", DELETE, PROFILE, 0x45D1, "", "00");
    command("its 46 went with it", GET, BRIDGE, 0x45D1, "8000", "05");
    command("Delete it again", DELETE, PROFILE, 0x45D1, "", "05");
    command("its ports stay", GET, PORT, port_number(3), "8000",
            "00 8000 45D1");
    command("a new port can't name it", CREATE, PORT, 0x1234,
            "45D1 01 02 0000 0000 0001 00 00 00", "03 8000");
    command("Create it again", CREATE, PROFILE, 0x45D1, GOOD_BRIDGE, "00");
    command("its ports count at once", GET, BRIDGE, 0x45D1, "4800",
            "00 4800 8000 03");
    command("its MAC is zero again", GET, BRIDGE, 0x45D1, "8000", "00 8000");
    command("the table is full again", CREATE, PROFILE, 0x1234, GOOD_BRIDGE,
            "01");
    fetch_changed("the upload before that stands");
}

/* ---- MIB reset, of that table ---- */

static void begin_walks(void)
{
    alarm("an alarm before the reset", UNI, 0x0101, 0, 1, GWZ_ANSWERED, 1);
    command("an alarm walk", ALL_ALARMS, ONT, 0, "", "0001");
    command("its section", ALARMS_NEXT, ONT, 0, "", "000B 0101 80");
    alarm("cleared", UNI, 0x0101, 0, 0, GWZ_ANSWERED, 1);
    alarm("and raised", UNI, 0x0101, 0, 1, GWZ_ANSWERED, 2);
    command("Sets of W attributes", SET, UNI, 0x0101, "B800 07 08 03 01",
            "00");
    if (product == GWZ_LARGE)
        command("Sets of W attributes", SET, UNI, 0x0101,
                "01F8 0640 01 1234 01 01 99", "00");
    report("L contents", UNI, 0x0101, 2, "55", GWZ_ANSWERED);
}

static void refused_resets(void)
{
    command("reset: no such instance", RESET, ONT, 1, "", "05");
    command("reset: not for this class", RESET, UNI, 0x0101, "", "02");
    command("reset: no such class", RESET, 99, 0, "", "04");
    command("all is as it was", GET, UNI, 0x0101, "B800",
            "00 B800 07 08 03 01");
}

/* what was created is gone, W is as at first, L and alarms stay */
static void after_reset(void)
{
    check_counter("the counter is 0", 0);
    command("no bridge", GET, PROFILE, 0xFFFF, "8000", "05");
    command("no 46", GET, BRIDGE, 0xFFFF, "8000", "05");
    command("no port", GET, PORT, 0xFFFF, "8000", "05");
    command("W attributes are as at first", GET, UNI, 0x0101, "B800",
            "00 B800");
    if (product == GWZ_LARGE)
        command("W attributes are as at first", GET, UNI, 0x0101, "01F8",
                "00 01F8 05EE 00 0000 02 00 00");
    command("L attributes stay", GET, UNI, 0x0101, "4400",
            product == GWZ_SMALL ? "00 4400 55 01" : "00 4400 55 00");
    command("the upload has ended", UPLOAD_NEXT, ONT, 0, "", "");
    command("the alarm walk has ended", ALARMS_NEXT, ONT, 0, "", "");
    alarm("the alarm stays", UNI, 0x0101, 0, 1, GWZ_QUIET, 0);
    alarm("the alarm number stays", UNI, 0x0101, 0, 0, GWZ_ANSWERED, 3);
    command("the UNIs are left", UPLOAD, ONT, 0, "",
            product == GWZ_SMALL ? "0001" : "0004");
}

static void reset(void)
{
    begin_walks();
    refused_resets();
    command("MIB reset", RESET, ONT, 0, "", "00");
    repeat("its repeat");
    after_reset();
    fill_table("40 places again");
}

static void full_table(void)
{
    power_on(product);
    fill_table("40 Creates");
    no_41st();
    uploads();
    delete_and_create();
    reset();
}

/* ---- repeats ---- */

static void repeated_create(void)
{
    command("a Create", CREATE, PROFILE, 1, GOOD_BRIDGE, "00");
    repeat("its repeat isn't refused");
    now.message[47] = 0x99;
    repeat("the checksum doesn't count");
    now.message[39] = 1;
    send_composed("padding counts: answered anew", "07");
    repeat("a refusal is remembered");
}

/* byte 8 is the mask's high byte: attribute 5, then 1 and 5 */
static void repeated_set(void)
{
    command("a Set", SET, UNI, 0x0101, "0800 01", "00");
    repeat("its repeat");
    now.message[8] = 0x88;
    send_composed("byte 8 differs: answered anew", "00");
    check_counter("the counter moved with each", 3);
    command("the second Set's contents", GET, UNI, 0x0101, "8800",
            "00 8800 01");
}

/* a repeat is answered from memory, even if the table has moved on */
static void repeated_get(void)
{
    command("a Get", GET, UNI, 0x0101, "0400", "00 0400 00");
    now.message[2] = 0x09;
    check(handle(MESSAGE) == GWZ_DROP_TYPE, "not dropped");
    now.message[2] = 0x49;
    report("a report meanwhile", UNI, 0x0101, 6, "01", GWZ_ANSWERED);
    repeat("its repeat, after a drop and a report");
    command("a new Get", GET, UNI, 0x0101, "0400", "00 0400 01");
}

/* a repeated upload freezes nothing anew */
static void repeated_upload(void)
{
    command("an upload", UPLOAD, ONT, 0, "",
            product == GWZ_SMALL ? "0003" : "0007");
    report("a report meanwhile", UNI, 0x0101, 6, "00", GWZ_ANSWERED);
    repeat("its repeat");
    command("the section as it stood first", UPLOAD_NEXT, ONT, 0, "0000",
            product == GWZ_SMALL ? "000B 0101 FC00 01 00 00 00 00 01"
            : "000B 0101 FFF8 01 00 00 00 00 01 00 05EE 00 0000 02 00 00");
}

/* only the last answered command is remembered, refused or not */
static void only_the_last(void)
{
    uint8_t first[MESSAGE];

    command("a Delete", DELETE, PROFILE, 1, "", "00");
    memcpy(first, now.message, MESSAGE);
    command("a refused one", DELETE, PROFILE, 9, "", "05");
    memcpy(now.message, first, MESSAGE);
    send_composed("the first, answered anew", "05");
    check_counter("one Delete was done", 4);
}

static void repeats(void)
{
    power_on(product);
    repeated_create();
    repeated_set();
    repeated_get();
    repeated_upload();
    only_the_last();
}

/* ---- alarms ---- */

static void raise_alarms(void)
{
    command("no walk begun", ALARMS_NEXT, ONT, 0, "", "");
    command("a walk of no alarms", ALL_ALARMS, ONT, 0, "", "0000");
    alarm("raised", UNI, 0x0101, 0, 1, GWZ_ANSWERED, 1);
    alarm("raised again", UNI, 0x0101, 0, 255, GWZ_QUIET, 0);
    if (product != GWZ_LARGE)
        return;
    alarm("raised", UNI, 0x0104, 0, 0x40, GWZ_ANSWERED, 2);
    alarm("raised", UNI, 0x0102, 0, 1, GWZ_ANSWERED, 3);
}

/* the bitmaps that were frozen, by number, not in the order of the raising */
static void walk_alarms(const char *name)
{
    command(name, ALARMS_NEXT, ONT, 0, "0000", "000B 0101 80");
    command(name, ALARMS_NEXT, ONT, 0, "0001",
            product == GWZ_LARGE ? "000B 0102 80" : "");
    command(name, ALARMS_NEXT, ONT, 0, "0002",
            product == GWZ_LARGE ? "000B 0104 80" : "");
    command(name, ALARMS_NEXT, ONT, 0, "0003", "");
}

static void alarm_walk(void)
{
    const char *count = product == GWZ_LARGE ? "0003" : "0001";
    const char *later = product == GWZ_LARGE ? "0002" : "0000";

    command("a walk", ALL_ALARMS, ONT, 0, "", count);
    walk_alarms("as it was frozen");
    alarm("cleared: the number began anew", UNI, 0x0101, 0, 0, GWZ_ANSWERED,
          1);
    alarm("cleared again", UNI, 0x0101, 0, 0, GWZ_QUIET, 0);
    walk_alarms("still as it was frozen");
    command("a walk of another class", ALL_ALARMS, UNI, 0x0101, "", "");
    alarm("that left the number alone", UNI, 0x0101, 0, 1, GWZ_ANSWERED, 2);
    alarm("cleared", UNI, 0x0101, 0, 0, GWZ_ANSWERED, 3);
    command("a later walk", ALL_ALARMS, ONT, 0, "", later);
}

/* a repeated walk doesn't set the number to 0 again */
static void repeated_walk(void)
{
    alarm("raised", UNI, 0x0101, 0, 1, GWZ_ANSWERED, 1);
    repeat("the walk's repeat");
    alarm("the number goes on", UNI, 0x0101, 0, 0, GWZ_ANSWERED, 2);
}

/* 255 goes to 1: after the 2 above, 300 more end at 302 - 255 */
static void many_alarms(void)
{
    unsigned sequence = 2;

    begin_run("300 notifications");
    for (unsigned n = 0; n < 300; n++) {
        sequence = sequence == 255 ? 1 : sequence + 1;
        check(tell_alarm(UNI, 0x0101, 0, ~n & 1) == GWZ_ANSWERED, "not sent");
        check_alarm(~n & 1, sequence);
        add_to_run();
    }
    say("alarm 11/0101 number 0 on, off, on ..");
    line_text(0, "last number %u, sum %08lX", now.reply[39],
              (unsigned long)run_sum);
    check(now.reply[39] == 302 - 255, "wrong last number");
}

static void alarms(void)
{
    power_on(product);
    raise_alarms();
    alarm_walk();
    repeated_walk();
    many_alarms();
}

/* ---- reports of attributes ---- */

static void reports(void)
{
    unsigned of_large = product == GWZ_SMALL ? GWZ_DROP_NOT_DECLARED
                                             : GWZ_QUIET;

    power_on(product);
    report("a link change", UNI, 0x0101, 6, "01", GWZ_ANSWERED);
    report("the same again", UNI, 0x0101, 6, "01", GWZ_QUIET);
    report("any sensed type", UNI, 0x0101, 2, "FF", GWZ_ANSWERED);
    report("stored, but never sent", UNI, 0x0101, 7, "77", of_large);
    command("a bridge", CREATE, PROFILE, 1, GOOD_BRIDGE, "00");
    report("copied at Create, then reported", BRIDGE, 1, 7, "0300",
           of_large);
    check_counter("reports move no counter", 1);
    command("the reported contents", GET, UNI, 0x0101,
            product == GWZ_SMALL ? "4400" : "4600",
            product == GWZ_SMALL ? "00 4400 FF 01" : "00 4600 FF 01 77");
    if (product == GWZ_LARGE)
        command("the reported contents", GET, BRIDGE, 1, "0300",
                "00 0300 0300 0F00");
}

/* ---- drops ---- */

/* a sound store, put aside while a spoilt one is lent */
static uint8_t sound[STORE];

static void spoil_store(void)
{
    memcpy(sound, now.store, STORE);
    memset(now.store, 0xFF, STORE);
}

static void mend_store(void)
{
    memcpy(now.store, sound, STORE);
}

static void drop_message(const char *name, size_t length, unsigned wanted)
{
    unsigned number;

    step_name = name;
    number = handle(length);
    say("a message of %u bytes", (unsigned)length);
    line(number);
    check(number == wanted, "wrong number");
}

/* every fault at once; then one after another is mended */
static void message_ladder(void)
{
    uint8_t *m = now.message;

    power_on(product);
    compose(GET, ONT, 0, "8000");
    put2(m, 0);
    m[2] = 0x69;
    m[3] = 0x0B;
    m[43] = 0x29;
    reply_len = MESSAGE - 1;
    spoil_store();
    drop_message("every fault at once", MESSAGE + 1, GWZ_DROP_REPLY_ROOM);
    reply_len = MESSAGE;
    drop_message("mended: room for a reply", MESSAGE + 1, GWZ_DROP_STORE);
    mend_store();
    drop_message("mended: the store", MESSAGE + 1, GWZ_DROP_LENGTH);
    drop_message("mended: the length", MESSAGE, GWZ_DROP_DEVICE);
    m[3] = 0x0A;
    drop_message("mended: the device", MESSAGE, GWZ_DROP_TYPE);
    m[2] = 0x49;
    drop_message("mended: the type", MESSAGE, GWZ_DROP_ID);
    m[0] = 0x80;
    drop_message("mended: the id", MESSAGE, GWZ_DROP_TRAILER);
    m[43] = 0x28;
    send_composed("mended: the trailer", "00 8000");
}

static void drop_lengths(void)
{
    compose(GET, ONT, 0, "8000");
    drop_message("an empty message", 0, GWZ_DROP_LENGTH);
    drop_message("a byte short", MESSAGE - 1, GWZ_DROP_LENGTH);
    drop_message("a byte long", MESSAGE + 1, GWZ_DROP_LENGTH);
    reply_len = 0;
    drop_message("no room for a reply", MESSAGE, GWZ_DROP_REPLY_ROOM);
    reply_len = MESSAGE;
    store_len = 0;
    drop_message("an empty store", MESSAGE, GWZ_DROP_STORE);
    store_len = STORE - 1;
    drop_message("a store a byte short", MESSAGE, GWZ_DROP_STORE);
    store_len = STORE;
}

/* the top three bits decide, and each of bytes 40 to 43 counts */
static void drop_bytes(void)
{
    unsigned number;

    begin_run("every type");
    for (unsigned type = 0; type < 256; type++) {
        compose(GET, 99, 0, "");
        now.message[2] = (uint8_t)type;
        number = handle(MESSAGE);
        run_count += number == GWZ_ANSWERED;
        check(number == (type >> 5 == 2 ? 0 : GWZ_DROP_TYPE), "wrong number");
    }
    say("types 00 to FF");
    line_text(GWZ_DROP_TYPE, "answered %u of 256", run_count);
    for (unsigned i = 40; i < 44; i++) {
        compose(GET, ONT, 0, "8000");
        now.message[i] ^= 0x10;
        drop_message("a wrong byte of 40 to 43", MESSAGE, GWZ_DROP_TRAILER);
    }
}

static void report_ladder(void)
{
    power_on(product);
    reply_len = MESSAGE - 1;
    spoil_store();
    report("every fault at once", UNI, 0x0105, 1, "0202", GWZ_DROP_REPLY_ROOM);
    reply_len = MESSAGE;
    report("mended: room for a reply", UNI, 0x0105, 1, "0202", GWZ_DROP_STORE);
    mend_store();
    report("mended: the store", UNI, 0x0105, 1, "0202", GWZ_DROP_INSTANCE);
    report("mended: the instance", UNI, 0x0101, 1, "0202",
           GWZ_DROP_NOT_DECLARED);
    report("mended: the attribute", UNI, 0x0101, 6, "0202", GWZ_DROP_CONTENT);
    report("mended: the length", UNI, 0x0101, 6, "02", GWZ_DROP_CONTENT);
    report("mended: the content", UNI, 0x0101, 6, "01", GWZ_ANSWERED);
}

static void drop_reports(void)
{
    report("no such class", 99, 0, 1, "00", GWZ_DROP_INSTANCE);
    report("no 46 without its 45", BRIDGE, 1, 1, "", GWZ_DROP_INSTANCE);
    report("the counter isn't reported", ONT, 0, 1, "00",
           GWZ_DROP_NOT_DECLARED);
    report("attribute 0", UNI, 0x0101, 0, "00", GWZ_DROP_NOT_DECLARED);
    report("attribute 255", UNI, 0x0101, 255, "00", GWZ_DROP_NOT_DECLARED);
    report("no content", UNI, 0x0101, 2, "", GWZ_DROP_CONTENT);
    report("too much content", UNI, 0x0101, 2, "0000", GWZ_DROP_CONTENT);
    report("not 0 or 1", UNI, 0x0101, 6, "FF", GWZ_DROP_CONTENT);
}

static void alarm_ladder(void)
{
    power_on(product);
    reply_len = 0;
    spoil_store();
    alarm("every fault at once", UNI, 0x0105, 1, 1, GWZ_DROP_REPLY_ROOM, 0);
    reply_len = MESSAGE;
    alarm("mended: room for a reply", UNI, 0x0105, 1, 1, GWZ_DROP_STORE, 0);
    mend_store();
    alarm("mended: the store", UNI, 0x0105, 1, 1, GWZ_DROP_INSTANCE, 0);
    alarm("mended: the instance", UNI, 0x0101, 1, 1, GWZ_DROP_NOT_DECLARED, 0);
    alarm("mended: the alarm", UNI, 0x0101, 0, 1, GWZ_ANSWERED, 1);
    alarm("no such class", 99, 0, 0, 1, GWZ_DROP_INSTANCE, 0);
    alarm("the ONT data has no alarm", ONT, 0, 0, 1, GWZ_DROP_NOT_DECLARED,
          0);
    alarm("alarm 255", UNI, 0x0101, 255, 1, GWZ_DROP_NOT_DECLARED, 0);
}

static void drop_power_on(const char *name, size_t length, unsigned which,
                          unsigned wanted)
{
    unsigned number;

    step_name = name;
    lend();
    number = gwz_power_on(now.store, length, (uint8_t)which);
    say("power-on of product %u, store of %u bytes", which, (unsigned)length);
    line(number);
    check_kept(0, 0);
    check(number == wanted, "wrong number");
}

static void drop_power_ons(void)
{
    drop_power_on("power-on: both faults", STORE - 1, 0, GWZ_DROP_STORE);
    drop_power_on("power-on: a byte short", STORE - 1, product,
                  GWZ_DROP_STORE);
    drop_power_on("power-on: empty", 0, product, GWZ_DROP_STORE);
    drop_power_on("power-on: no product", STORE, 0, GWZ_DROP_NOT_DECLARED);
    drop_power_on("power-on: no product", STORE, 4, GWZ_DROP_NOT_DECLARED);
    drop_power_on("power-on: no product", STORE, 255, GWZ_DROP_NOT_DECLARED);
}

static void drops(void)
{
    message_ladder();
    drop_lengths();
    drop_bytes();
    report_ladder();
    drop_reports();
    alarm_ladder();
    drop_power_ons();
}

/* ---- unsound stores ---- */

/* is a store with this one byte changed still a state? */
static int still_sound(size_t at, unsigned change)
{
    unsigned number;

    now.store[at] ^= (uint8_t)change;
    compose(GET, ONT, 0, "8000");
    number = handle(MESSAGE);
    check(number == GWZ_ANSWERED || number == GWZ_DROP_STORE,
          "neither answered nor drop 2");
    memcpy(now.store, sound, STORE);
    return number == GWZ_ANSWERED;
}

static void spoil_each_byte(unsigned change)
{
    unsigned kept = 0;

    for (size_t at = 0; at < STORE; at++)
        kept += still_sound(at, change) ? 1 : 0;
    say("each byte in turn changed by %02X", change);
    line_text(GWZ_DROP_STORE, "dropped %u, answered %u", STORE - kept, kept);
}

/* with everything that a state can hold: full tables, an alarm, both walks */
static void unsound_stores(void)
{
    power_on(product);
    fill_table("40 Creates");
    alarm("an alarm", UNI, 0x0101, 0, 1, GWZ_ANSWERED, 1);
    command("an alarm walk", ALL_ALARMS, ONT, 0, "", "0001");
    ask_for_upload("an upload");
    memcpy(sound, now.store, STORE);
    step_name = "a spoilt store";
    spoil_each_byte(0x01);
    spoil_each_byte(0x80);
    spoil_each_byte(0xFF);
}

static void filled_stores(void)
{
    step_name = "a store of one byte over and over";
    for (unsigned b = 0; b < 256; b++) {
        memset(now.store, (int)b, STORE);
        compose(GET, ONT, 0, "8000");
        check(handle(MESSAGE) == GWZ_DROP_STORE, "not dropped");
    }
    say("00, 01 .. FF");
    line_text(GWZ_DROP_STORE, "dropped");
}

/* ---- what lies around and behind ---- */

/* the same run over other rubbish: every byte of the store is the same */
static void same_anywhere(void)
{
    uint8_t first[STORE];

    for (unsigned seed = 0; seed < 2; seed++) {
        fill_lent(100 + 77 * seed);
        store_len = STORE + SPARE * seed;
        reply_len = MESSAGE + SPARE * seed;
        last_id = 0;
        power_on(product);
        command("longer areas, other rubbish", CREATE, PROFILE, 1,
                GOOD_BRIDGE, "00");
        command("longer areas, other rubbish", UPLOAD, ONT, 0, "",
                product == GWZ_SMALL ? "0003" : "0007");
        if (seed == 0)
            memcpy(first, now.store, STORE);
    }
    check(memcmp(first, now.store, STORE) == 0, "the stores differ");
    store_len = STORE;
    reply_len = MESSAGE;
}

/* ---- Meter ---- */

/* for a known class Create, Delete and Set are 2, for any other all is 4 */
static void meter_results(void)
{
    static const unsigned unknown[] = { 99, PROFILE, BRIDGE, PORT };

    power_on(product);
    for (unsigned i = 0; i < 4; i++)
        results_of(unknown[i],
                   "02020202040204020404020000000004" NOT_BUILT_FROM_16);
    results_of(ONT, "02020202020202020205020000000005" NOT_BUILT_FROM_16);
    results_of(UNI, "02020202020202020205020000000002" NOT_BUILT_FROM_16);
    command("a Set of the counter", SET, ONT, 0, "8000 07", "02");
    command("a Set of the UNI", SET, UNI, 0x0101, "8000 07", "02");
    command("a Create of the UNI", CREATE, UNI, 0x0101, "", "02");
    command("a Delete of the UNI", DELETE, UNI, 0x0101, "", "02");
    command("a bridge", CREATE, PROFILE, 1, GOOD_BRIDGE, "04");
    check_counter("the counter stays 0", 0);
}

/* attributes 1, 2, 5 and 6, a byte each */
static void meter_reads(void)
{
    power_on(product);
    command("all that a fresh UNI has", GET, UNI, 0x0101, "CC00",
            "00 CC00 00 00 00 00");
    command("3 and 4 are not supported", GET, UNI, 0x0101, "FC00",
            "09 0000 0000000000000000000000000000000000000000"
            "0000000000 3000");
    command("one UNI alone", GET, UNI, 0x0102, "8000", "05");
    report("a sensed type", UNI, 0x0101, 2, "55", GWZ_ANSWERED);
    report("the link goes", UNI, 0x0101, 6, "01", GWZ_ANSWERED);
    report("the same again", UNI, 0x0101, 6, "01", GWZ_QUIET);
    report("no attribute 3", UNI, 0x0101, 3, "01",
           GWZ_DROP_NOT_DECLARED);
    report("5 isn't reported", UNI, 0x0101, 5, "01",
           GWZ_DROP_NOT_DECLARED);
    command("what was reported", GET, UNI, 0x0101, "CC00",
            "00 CC00 00 55 00 01");
}

/* of that state */
static void meter_upload_and_reset(void)
{
    command("an upload", UPLOAD, ONT, 0, "", "0001");
    report("the link is back", UNI, 0x0101, 6, "00", GWZ_ANSWERED);
    command("the section as it was frozen", UPLOAD_NEXT, ONT, 0, "",
            "000B 0101 CC00 00 55 00 01");
    command("no second section", UPLOAD_NEXT, ONT, 0, "0001", "");
    command("reset of another instance", RESET, ONT, 1, "", "05");
    command("reset", RESET, ONT, 0, "", "00");
    repeat("its repeat");
    command("what was reported stays", GET, UNI, 0x0101, "CC00",
            "00 CC00 00 55 00 00");
    command("the upload has ended", UPLOAD_NEXT, ONT, 0, "", "");
}

static void meter_stores(void)
{
    power_on(product);
    alarm("an alarm", UNI, 0x0101, 0, 1, GWZ_ANSWERED, 1);
    command("an alarm walk", ALL_ALARMS, ONT, 0, "", "0001");
    command("an upload", UPLOAD, ONT, 0, "", "0001");
    memcpy(sound, now.store, STORE);
    step_name = "a spoilt store";
    spoil_each_byte(0x01);
    spoil_each_byte(0x80);
    spoil_each_byte(0xFF);
    filled_stores();
}

static void run_meter(void)
{
    product = GWZ_METER;
    last_id = 0;
    fill_lent(GWZ_METER);
    example_12();
    meter_results();
    meter_reads();
    meter_upload_and_reset();
    alarms();
    drops();
    meter_stores();
}

/* ---- */

static void run(unsigned which)
{
    product = which;
    last_id = 0;
    fill_lent(which);
    examples();
    results_by_number();
    refused_creates();
    refused_sets();
    refused_gets();
    legal_contents();
    full_table();
    repeats();
    alarms();
    reports();
    drops();
    unsound_stores();
    filled_stores();
    same_anywhere();
}

int main(void)
{
    check(gwz_store_size() == STORE, "the header's store size is another");
    check(STORE <= 16384, "the store is too long");
    printf("store size | | | | %u\n", (unsigned)gwz_store_size());
    run(GWZ_SMALL);
    run(GWZ_LARGE);
    run_meter();
    printf("%u steps, every check holds\n", steps);
    return EXIT_SUCCESS;
}
