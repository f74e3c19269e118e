/*
 * The benchmark: checks that the three implementations answer alike, measures them, and prints what docs/PERFORMANCE.md shows.
 *
 * Usage: bench COUNTS [--clang COUNTS] [--before COUNTS]
 * COUNTS has a line "INPUT IMPLEMENTATION INSTRUCTIONS" for each input and implementation, as bench/run takes them from callgrind's
 * files: those of --clang where clang compiled plain.c, those of --before with an earlier archive in the library's place.
 */
#include <inttypes.h>
#include <stdio.h>
#include <stdlib.h>
#include <string.h>

#include "measure.h"

/* The house's promise on stack, on every input. */
/* Twice as much where a call gathers the names of a leaf. */
enum { PROMISED_STACK = 16 * 1024, PROMISED_STACK_BY_LEAF = 2 * PROMISED_STACK };

/* The house's promises on instructions against plain C's: on an input the last that fits it, so all but the first are exceptions. */
static const struct promise {
    enum table table;  /* TABLES: every table */
    const char *input; /* its whole name; NULL: every input of the table */
    double ratio;
    const char *rows, *reason;
} promises[] = {
    {TABLES, NULL, 1.1, "every row but those below", "the aim is 1.0"},
    {CACHE, NULL, 1.5, "policy cache",
     "domains and ids are filled up with zeros, which plain C reads with the C library's `memchr` and `memcmp`, chosen by the processor; the archive calls neither"},
    {CACHE, lookup_of_none, 1.6, "the lookup that finds none of 64 domains of many lengths",
     "for an entry with a longer domain plain C tests one byte and goes on, 8 instructions; the library's pass also tests which entries it looks for and whether its search is over, 13"},
    {PUBLISHING, NULL, 1.7, "publishing",
     "a pattern's letters take 10 instructions each, and 6 in plain C; short texts are copied byte by byte, in plain C by the C library's `memcpy`. A policy is written when it changes, not for a message"},
    {PUBLISHING, measured_rewriting, 2.0, "a policy written anew into an output of just its length",
     "the mx lines are measured first, in a pass of their own; an output of `TWEEDSTORK_WRITE_POLICY_ROOM` bytes needs none"},
    {READING, NULL, 1.5, "reading a leaf", "a leaf of the usual shape is read at sight, and its DNS-IDs are met once more to count them and once to write their places; plain C keeps them in an array as it meets them"},
    {READING, refused_at_the_first_byte, 4.0, "a leaf that is refused at its first byte", "an answer of nine numbers is written and two functions are entered; plain C takes 69 instructions"},
    {READING, refused_at_the_last_element, 2.5, "a leaf that is refused at its last element", "what is not of the usual shape is walked from its front, so that the fault is the first by the definition's own order"},
    {LEAF_DNS_IDS, NULL, 1.5, "DNS-IDs of a leaf that is read", "as with reading a leaf"},
    {LEAF_BYTES, NULL, 1.5, "bytes of a leaf that is read", "as with reading a leaf"},
    {LEAF_READ, NULL, 1.5, "a host by its leaf", "as with reading a leaf; the names are gathered one after another, as the plain call takes them"},
    {LEAF_READ, many_dns_ids_by_leaf, 1.6, "a host by a leaf of 5 KB", "room for 16,384 bytes of names is cleared; for a leaf of up to 2,000 bytes it is 2,000"},
    {NAMES_GIVEN, NULL, 1.35, "the same hosts by the names that the relay gives", "the 32 arguments are gathered into one struct in memory, which is handed to the code that judges"},
    {CALLS, one_usage_3_record, 1.3, "a host with one record", "as above"},
    {CALLS, one_usage_2_record, 1.3, "a host with one record of usage 2", "as above"},
    {CALLS, one_usage_2_record_expanded, 1.3, "a host that the expanded next-hop names", "as above"},
    {CALLS, both_digests, 1.3, "a host with records of both digests", "as above"},
    {CALLS, ignored_records, 1.5, "31 records that are ignored beside a SHA-512 one", "as above; a set is gone through for lengths, for SHA-512 records and for the match, each in a pass of its own, and plain C learns the first two in one"},
    {LAST_RECORD_MATCHES, NULL, 1.2, "TLSA records of which the last matches", "as above"},
    {CERTIFICATES, NULL, 1.3, "certificates of a host", "as above"},
    {DECISIONS, NULL, 1.4, "decisions", "as above, four or five calls each"},
    {DNS_IDS, NULL, 1.3, "DNS-IDs as long as the host's name",
     "that the host is a name is tested once more where a DNS-ID equals it, and its first label where a pattern with a star matches it: each crate promises its answer for every text"},
    {OTHER_DNS_IDS, NULL, 1.3, "DNS-IDs of another length", "held against two references, a name takes 52 instructions, plain C's 46, since the library clips it at the end of the bytes once more; the rest of the call takes 1,156 and 1,055"},
    {CALLS, certificates_beside_old_tls, 1.3, "certificates beside old TLS", "they are checked and held against nothing, so that the checks are all there is to count; where they are held against records, the library takes less for that than plain C. A relay has no need to give them there"},
    {DECISIONS, dane_decision_by_leaf, 1.5, "the decision by DANE, leaf read", "as with reading a leaf"},
    {DECISIONS, mta_sts_decision_by_leaf, 1.5, "the decision by MTA-STS, leaf read", "as with reading a leaf"},
    {HOSTS, NULL, 1.5, "hosts of a message",
     "the form of that walk is fixed, arrays of 32 by value with a count: the library reads the lists into arrays and walks those, plain C walks the lists themselves"},
    {DECISIONS, whole_certificate_decision, 1.5, "the decision with a whole certificate (record 3 0 0 of 1.5 KB)",
     "plain C calls the C library's `memcmp`, chosen by the processor, which compares 32 bytes an instruction; the archive doesn't call it"},
};
enum { PROMISES = sizeof promises / sizeof promises[0] };

/* For the share of a delivery: TCP's handshake, EHLO, STARTTLS and TLS 1.3's handshake, with a server that is near. */
static const double round_trips = 4, round_trip_seconds = 0.001;

struct results {
    const struct inputs *inputs;
    uint64_t instructions[MAX_INPUTS][IMPLEMENTATIONS];
    uint64_t clang[MAX_INPUTS][IMPLEMENTATIONS], before[MAX_INPUTS][IMPLEMENTATIONS];
    int has_clang, has_before;
    struct times times[MAX_INPUTS];
    size_t stack[MAX_INPUTS];
};

static const struct {
    const char *title, *column;
} tables[TABLES] = {
    [CALLS] = {"## Single calls", "Input"},
    [CACHE] = {"## Single calls for a policy cache (alike: domains of one length that differ in their 5th and 6th byte alone)", "Cache"},
    [PUBLISHING] = {"## Single calls for publishing", "Publishing"},
    [READING] = {"## Single calls that read a leaf certificate", "Leaf"},
    [LEAF_READ] = {"## Single calls that judge a host by its leaf certificate, 3 certificates", "Host, leaf read"},
    [NAMES_GIVEN] = {"## The same hosts by the names that the relay gives", "Host, names given"},
    [DECISIONS] = {"## Whole decisions: every call, from the first question to the verdict", "Decision"},
    [LAST_RECORD_MATCHES] = {"### TLSA records 2 1 1, 8 certificates, the last record matches the last certificate", "Records, the last matches"},
    [NO_RECORD_MATCHES] = {"### TLSA records 2 1 1, 8 certificates, none matches", "Records, none matches"},
    [CERTIFICATES] = {"### Certificates of 1.5 KB, a record 2 1 1 that matches none", "Certificates"},
    [POLICY_BYTES] = {"### Bytes of a policy, mx lines", "Bytes of a policy"},
    [TXT_BYTES] = {"### Bytes of a TXT record, fields of 32 bytes", "Bytes of a TXT record"},
    [DNS_IDS] = {"### DNS-IDs as long as the host's name and with the same end, a host with a policy of 63 bytes; the last is the host", "DNS-IDs"},
    [OTHER_DNS_IDS] = {"### DNS-IDs of another length than the two references, a record 2 1 1 that matches; none is a reference", "DNS-IDs of another length"},
    [LEAF_DNS_IDS] = {"### DNS-IDs of 16 bytes in a leaf that is read", "DNS-IDs read"},
    [LEAF_BYTES] = {"### Bytes of a leaf that is read, extensions of 40 bytes", "Bytes of a leaf"},
    [HOSTS] = {"### Hosts of a message; the one that decides is the last to be looked at", "Hosts"},
};

/* ---- what was counted and measured ---- */

static void read_counts(const char *path, const struct inputs *inputs, uint64_t counts[][IMPLEMENTATIONS])
{
    FILE *file = fopen(path, "r");
    size_t i, k, lines = 0;
    uint64_t count;

    if (file == NULL) {
        fprintf(stderr, "bench: cannot read %s: bench/run makes it\n", path);
        exit(1);
    }
    while (fscanf(file, "%zu %zu %" SCNu64, &i, &k, &count) == 3)
        if (i < inputs->count && k < IMPLEMENTATIONS && count != 0 && counts[i][k] == 0) {
            counts[i][k] = count;
            lines++;
        }
    fclose(file);
    if (lines != inputs->count * IMPLEMENTATIONS) {
        fprintf(stderr, "bench: %s lacks a count, or has one that is zero or stands twice: see callgrind's files beside it\n", path);
        exit(1);
    }
}

static void measure(struct results *r, struct inputs *const *inputs)
{
    for (size_t i = 0; i < r->inputs->count; i++) {
        measure_times(inputs, i, &r->times[i]);
        r->stack[i] = measure_stack(&r->inputs->at[i]);
    }
}

/* The library's instructions against another's. */
static double ratio(const struct results *r, size_t i, size_t against)
{
    return (double)r->instructions[i][LIBRARY] / (double)r->instructions[i][against];
}

static const struct promise *promise_on(const struct input *input)
{
    const struct promise *found = promises;

    for (const struct promise *p = promises + 1; p < promises + PROMISES; p++)
        if (p->table == input->table && (p->input == NULL || strcmp(p->input, input->name) == 0))
            found = p;
    return found;
}

/* Decisions per second, where so many threads have each made one after that time. */
static double per_second(size_t threads, double nanoseconds)
{
    return 1e9 * (double)threads / nanoseconds;
}

/* ---- printing ---- */

/* Writes the number with a comma before each three digits. */
static void print_number(double number)
{
    char digits[32];
    int length = snprintf(digits, sizeof digits, "%.0f", number);

    for (int i = 0; i < length; i++)
        printf("%s%c", i != 0 && (length - i) % 3 == 0 ? "," : "", digits[i]);
}

static void print_cell(double number)
{
    printf(" ");
    print_number(number);
    printf(" |");
}

static void print_costs(const double costs[IMPLEMENTATIONS])
{
    for (size_t k = 0; k < IMPLEMENTATIONS; k++)
        print_cell(costs[k]);
    printf(" %.2f | %.2f |", costs[LIBRARY] / costs[RUST], costs[LIBRARY] / costs[PLAIN_C]);
}

/* What is promised of the ratio in the cell before; an exception stands out. */
static void print_promise(const struct input *input)
{
    const struct promise *p = promise_on(input);
    const char *mark = p == promises ? "" : "**";

    printf(" %s%.1f%s |", mark, p->ratio, mark);
}

static void print_row(const struct results *r, size_t i)
{
    double instructions[IMPLEMENTATIONS];

    for (size_t k = 0; k < IMPLEMENTATIONS; k++)
        instructions[k] = (double)r->instructions[i][k];
    printf("| %s |", r->inputs->at[i].name);
    print_costs(instructions);
    print_promise(&r->inputs->at[i]);
    print_costs(r->times[i].alone);
    printf("\n");
}

static int is_series(enum table table)
{
    return table >= LAST_RECORD_MATCHES;
}

/* What one more of the table's kind costs, from an input of the series to the next. */
static double cost_of_one(const struct results *r, size_t i)
{
    double from = strtod(r->inputs->at[i].name, NULL), to = strtod(r->inputs->at[i + 1].name, NULL);

    return ((double)r->instructions[i + 1][LIBRARY] - (double)r->instructions[i][LIBRARY]) / (to - from);
}

static void print_growth(const struct results *r, enum table table)
{
    size_t first = (size_t)(first_input(r->inputs, table) - r->inputs->at), last = first;

    while (last + 1 < r->inputs->count && r->inputs->at[last + 1].table == table)
        last++;
    printf("\nOne more costs the library %.1f instructions between the first two rows, %.1f between the last two.\n",
           cost_of_one(r, first), cost_of_one(r, last - 1));
}

static void print_table(const struct results *r, enum table table)
{
    printf("\n%s\n\n| %s | instructions: library | C | Rust | library / Rust | library / C | at most | ns, not judged: library | C | Rust | library / Rust | library / C |\n",
           tables[table].title, tables[table].column);
    printf("|---|--:|--:|--:|--:|--:|--:|--:|--:|--:|--:|--:|\n");
    for (size_t i = 0; i < r->inputs->count; i++)
        if (r->inputs->at[i].table == table)
            print_row(r, i);
    if (table == CACHE)
        printf("\nThe nanoseconds of a store include putting back what it wrote, so that every store starts from the same cache; its instructions do not.\n");
    if (is_series(table))
        print_growth(r, table);
}

/* The least and the largest ratio of instructions over the inputs of a promise. */
static void print_range(const struct results *r, const struct promise *promise, size_t against)
{
    double least = 0, most = 0;

    for (size_t i = 0; i < r->inputs->count; i++)
        if (promise_on(&r->inputs->at[i]) == promise) {
            double one = ratio(r, i, against);
            least = least == 0 || one < least ? one : least;
            most = one > most ? one : most;
        }
    if (least == most)
        printf(" %.2f |", most);
    else
        printf(" %.2f to %.2f |", least, most);
}

static void print_promises(const struct results *r)
{
    printf("\n## The promise on instructions\n\n| Rows | library / Rust | library / C | at most | Note |\n|---|--:|--:|--:|---|\n");
    for (const struct promise *p = promises; p < promises + PROMISES; p++) {
        printf("| %s |", p->rows);
        print_range(r, p, RUST);
        print_range(r, p, PLAIN_C);
        printf(" %.1f | %s |\n", p->ratio, p->reason);
    }
    printf("\nIn the tables below, \"at most\" is what is promised of the ratio before it, an exception's in bold. Nothing is judged by the nanoseconds.\n");
}

static double share(double nanoseconds)
{
    return 100 * nanoseconds * 1e-9 / (round_trips * round_trip_seconds);
}

static void print_summary(const struct results *r)
{
    size_t first = (size_t)(first_input(r->inputs, DECISIONS) - r->inputs->at);
    double dane = r->times[first].alone[LIBRARY], mta_sts = r->times[first + 1].alone[LIBRARY];

    printf("A whole decision on a host takes %.3f µs with DANE and %.3f µs with MTA-STS: ", dane / 1000, mta_sts / 1000);
    print_number(per_second(1, dane));
    printf(" and ");
    print_number(per_second(1, mta_sts));
    printf(" decisions per second on one thread.\n");
    printf("To a server %.0f ms away, whose connection and TLS handshake take %.0f round trips, that is %.3f %% and %.3f %% of the wait before the message can be sent.\n",
           1000 * round_trip_seconds, round_trips, share(dane), share(mta_sts));
}

static void print_decisions(const struct results *r)
{
    printf("\n## Decisions per second of the library\n\n");
    printf("| Decision | ns, not judged: one thread | each of two threads | decisions per second: one thread | two threads | two / one |\n|---|--:|--:|--:|--:|--:|\n");
    for (size_t i = 0; i < r->inputs->count; i++)
        if (r->inputs->at[i].table == DECISIONS) {
            double alone = r->times[i].alone[LIBRARY], together = r->times[i].together;
            printf("| %s |", r->inputs->at[i].name);
            print_cell(alone);
            print_cell(together);
            print_cell(per_second(1, alone));
            print_cell(per_second(THREADS, together));
            printf(" %.2f |\n", per_second(THREADS, together) / per_second(1, alone));
        }
}

static size_t most_stack(const struct results *r, enum call call)
{
    size_t most = 0;

    for (size_t i = 0; i < r->inputs->count; i++)
        if (r->inputs->at[i].call == call && r->stack[i] > most)
            most = r->stack[i];
    return most;
}

static void print_stack(const struct results *r)
{
    static const char *const names[] = {[READ_TXT] = "tweedstork_read_txt", [READ_POLICY] = "tweedstork_read_policy",
        [CACHE_STORE] = "tweedstork_cache_store", [CACHE_LOOKUP] = "tweedstork_cache_lookup",
        [JUDGE_HOST] = "tweedstork_judge_host", [READ_CERTIFICATE] = "tweedstork_read_certificate",
        [JUDGE_HOST_CERTIFICATE] = "tweedstork_judge_host_certificate", [NEXT_HOST] = "tweedstork_next_host",
        [WRITE_TXT] = "tweedstork_write_txt", [WRITE_POLICY] = "tweedstork_write_policy", [REWRITE_POLICY] = "tweedstork_rewrite_policy"};

    printf("\n## Stack of the library's calls\n\n| Call | most bytes of stack on any of these inputs |\n|---|--:|\n");
    for (size_t call = READ_TXT; call <= REWRITE_POLICY; call++) {
        printf("| `%s` |", names[call]);
        print_cell((double)most_stack(r, (enum call)call));
        printf("\n");
    }
}

static void print_clang(const struct results *r)
{
    printf("\n## Plain C by gcc and by clang, both -O2\n\n");
    printf("| Input | instructions: library | C, gcc | C, clang | library / gcc | at most | library / clang, not judged |\n|---|--:|--:|--:|--:|--:|--:|\n");
    for (size_t i = 0; i < r->inputs->count; i++)
        if (!is_series(r->inputs->at[i].table)) {
            double library = (double)r->instructions[i][LIBRARY], clang = (double)r->clang[i][PLAIN_C];
            printf("| %s |", r->inputs->at[i].name);
            print_cell(library);
            print_cell((double)r->instructions[i][PLAIN_C]);
            print_cell(clang);
            printf(" %.2f |", ratio(r, i, PLAIN_C));
            print_promise(&r->inputs->at[i]);
            printf(" %.2f |\n", library / clang);
        }
}

/* The rows whose instructions are not those of the earlier archive. */
static void print_before(const struct results *r)
{
    printf("\n## Before and after\n\n| Input | instructions: before | after | after / before | C | before / C | after / C |\n|---|--:|--:|--:|--:|--:|--:|\n");
    for (size_t i = 0; i < r->inputs->count; i++) {
        const struct input *input = &r->inputs->at[i];
        double before = (double)r->before[i][LIBRARY], after = (double)r->instructions[i][LIBRARY], c = (double)r->instructions[i][PLAIN_C];
        if (before == after)
            continue;
        if (is_series(input->table))
            printf("| %s: %s |", tables[input->table].column, input->name);
        else
            printf("| %s |", input->name);
        print_cell(before);
        print_cell(after);
        printf(" %.2f |", after / before);
        print_cell(c);
        printf(" %.2f | %.2f |\n", before / c, after / c);
    }
}

static void print_results(const struct results *r)
{
    print_summary(r);
    print_promises(r);
    print_table(r, CALLS);
    print_table(r, CACHE);
    print_table(r, PUBLISHING);
    print_table(r, READING);
    print_table(r, LEAF_READ);
    print_table(r, NAMES_GIVEN);
    print_table(r, DECISIONS);
    print_decisions(r);
    printf("\n## Growth\n");
    for (size_t table = LAST_RECORD_MATCHES; table < TABLES; table++)
        print_table(r, (enum table)table);
    print_stack(r);
    if (r->has_clang)
        print_clang(r);
    if (r->has_before)
        print_before(r);
}

/* ---- the promises ---- */

/* All that is broken goes on one line. */
static void say_broken(size_t *broken, const struct input *input, double found, const char *what, double promised)
{
    fprintf(stderr, "%s%s \"%s\": %.5g %s, promised at most %g", (*broken)++ == 0 ? "bench: promise broken: " : "; ",
            tables[input->table].column, input->name, found, what, promised);
}

static int keeps_promises(const struct results *r)
{
    size_t broken = 0;

    for (size_t i = 0; i < r->inputs->count; i++) {
        const struct input *input = &r->inputs->at[i];
        double found = ratio(r, i, PLAIN_C), promised = promise_on(input)->ratio;
        if (found > promised)
            say_broken(&broken, input, found, "times plain C's instructions", promised);
        size_t room = input->call == JUDGE_HOST_CERTIFICATE ? PROMISED_STACK_BY_LEAF : PROMISED_STACK;
        if (r->stack[i] > room)
            say_broken(&broken, input, (double)r->stack[i], "bytes of stack", (double)room);
    }
    if (broken != 0)
        fprintf(stderr, "\n");
    return broken == 0;
}

static int usage(void)
{
    fprintf(stderr, "usage: bench COUNTS [--clang COUNTS] [--before COUNTS] (bench/run makes all of them)\n");
    return 2;
}

int main(int argc, char **argv)
{
    static struct results results;
    struct inputs *inputs[THREADS];

    if (argc < 2 || argc % 2 != 0)
        return usage();
    for (int k = 2; k < argc; k += 2)
        if (strcmp(argv[k], "--clang") != 0 && strcmp(argv[k], "--before") != 0)
            return usage();
    for (size_t i = 0; i < THREADS; i++)
        inputs[i] = build_inputs();
    if (!check_answers(inputs[0]))
        return 1;
    results.inputs = inputs[0];
    read_counts(argv[1], inputs[0], results.instructions);
    for (int k = 2; k < argc; k += 2) {
        if (strcmp(argv[k], "--clang") == 0) {
            read_counts(argv[k + 1], inputs[0], results.clang);
            results.has_clang = 1;
        } else {
            read_counts(argv[k + 1], inputs[0], results.before);
            results.has_before = 1;
        }
    }
    measure(&results, inputs);
    print_results(&results);
    return keeps_promises(&results) ? 0 : 3;
}
