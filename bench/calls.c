#include "calls.h"

#include <inttypes.h>
#include <stdio.h>
#include <string.h>

#include "independent.h"
#include "plain.h"

const struct implementation implementations[IMPLEMENTATIONS] = {
    {"library", tweedstork_read_txt, tweedstork_read_policy, tweedstork_cache_store, tweedstork_cache_lookup, tweedstork_judge_host,
     tweedstork_read_certificate, tweedstork_judge_host_certificate, tweedstork_next_host, tweedstork_write_txt, tweedstork_write_policy, tweedstork_rewrite_policy},
    {"C", plain_read_txt, plain_read_policy, plain_cache_store, plain_cache_lookup, plain_judge_host,
     plain_read_certificate, plain_judge_host_certificate, plain_next_host, plain_write_txt, plain_write_policy, plain_rewrite_policy},
    {"Rust", independent_read_txt, independent_read_policy, independent_cache_store, independent_cache_lookup, independent_judge_host,
     independent_read_certificate, independent_judge_host_certificate, independent_next_host, independent_write_txt, independent_write_policy, independent_rewrite_policy},
};

static struct answer call_judge_host(const struct implementation *implementation, const struct facts *f)
{
    struct tweedstork_host_answer a = implementation->judge_host(
        f->clock, f->next_hop.at, f->next_hop.length, f->expanded_next_hop_given, f->expanded_next_hop.at, f->expanded_next_hop.length,
        f->origin, f->host.at, f->host.length, f->address, f->expanded.at, f->expanded.length, f->policy_given, f->policy.at, f->policy.length, f->fetched, f->tlsa_answers,
        f->tlsa[0].result, f->tlsa[0].lengths.at, f->tlsa[0].lengths.length, f->tlsa[0].records.at, f->tlsa[0].records.length,
        f->tlsa[1].result, f->tlsa[1].lengths.at, f->tlsa[1].lengths.length, f->tlsa[1].records.at, f->tlsa[1].records.length,
        f->starttls, f->handshake, f->tls_version, f->certificates_given, f->certificates.at, f->certificates.length,
        f->certificate_lengths.at, f->certificate_lengths.length, f->key_places.at, f->key_places.length,
        f->digests.at, f->digests.length, f->paths.at, f->paths.length, f->trusted_root,
        f->dns_ids.at, f->dns_ids.length, f->dns_id_lengths.at, f->dns_id_lengths.length,
        f->common_name_given, f->common_name.at, f->common_name.length);

    return (struct answer){{a.number, a.tlsa_questions}};
}

/* The leaf's place of the key and its names are not given. Not inlined, as below: its arguments are many. */
__attribute__((noinline)) static struct answer call_judge_host_certificate(const struct implementation *implementation, const struct facts *f)
{
    size_t leaf_place = f->key_places.length < 8 ? 0 : 8;
    struct tweedstork_host_answer a = implementation->judge_host_certificate(
        f->clock, f->next_hop.at, f->next_hop.length, f->expanded_next_hop_given, f->expanded_next_hop.at, f->expanded_next_hop.length,
        f->origin, f->host.at, f->host.length, f->address, f->expanded.at, f->expanded.length, f->policy_given, f->policy.at, f->policy.length, f->fetched, f->tlsa_answers,
        f->tlsa[0].result, f->tlsa[0].lengths.at, f->tlsa[0].lengths.length, f->tlsa[0].records.at, f->tlsa[0].records.length,
        f->tlsa[1].result, f->tlsa[1].lengths.at, f->tlsa[1].lengths.length, f->tlsa[1].records.at, f->tlsa[1].records.length,
        f->starttls, f->handshake, f->tls_version, f->certificates_given, f->certificates.at, f->certificates.length,
        f->certificate_lengths.at, f->certificate_lengths.length, f->key_places.at + leaf_place, f->key_places.length - leaf_place,
        f->digests.at, f->digests.length, f->paths.at, f->paths.length, f->trusted_root);

    return (struct answer){{a.number, a.tlsa_questions}};
}

/* What the store before wrote is put back first, so that every store has the same to do. Callgrind counts inside the call alone. */
static struct answer call_cache_store(const struct implementation *implementation, const struct cache_call *c)
{
    size_t start = TWEEDSTORK_CACHE_TEXT_ROOM * c->place;

    memcpy(&c->lent->table[c->place], &c->before->table[c->place], sizeof c->lent->table[0]);
    memcpy(c->lent->texts + start, c->before->texts + start, c->policy.length);
    struct tweedstork_write_answer a = implementation->cache_store(
        c->clock, c->domain.at, c->domain.length, c->id.at, c->id.length, c->policy.at, c->policy.length,
        c->lent->table, TWEEDSTORK_CACHE_ENTRIES, c->lent->texts, sizeof c->lent->texts);

    return (struct answer){{a.number, a.length}};
}

/* Not inlined: its answer, longer than most, is no part of the stack that is measured for the other calls. */
__attribute__((noinline)) static struct answer call_cache_lookup(const struct implementation *implementation, const struct cache_call *c, struct bytes output)
{
    struct tweedstork_cache_answer a = implementation->cache_lookup(
        c->clock, c->domain.at, c->domain.length, c->lent->table, TWEEDSTORK_CACHE_ENTRIES, c->lent->texts, sizeof c->lent->texts);

    memcpy(output.at, &a, sizeof a);
    return (struct answer){{a.number}};
}

/* Not inlined, as above. */
__attribute__((noinline)) static struct answer call_read_certificate(const struct implementation *implementation, const struct input *input)
{
    struct bytes certificate = input->first, output = input->output;
    size_t places = output.length - sizeof(struct tweedstork_certificate_answer);
    struct tweedstork_certificate_answer a = implementation->read_certificate(certificate.at, certificate.length, output.at, places);

    memcpy(output.at + places, &a, sizeof a);
    return (struct answer){{a.number}};
}

/* What the call before wrote stays: none of the three reads its output. Not inlined, as above: their arguments are many. */
__attribute__((noinline)) static struct answer call_publishing(const struct implementation *implementation, const struct input *input)
{
    struct bytes first = input->first, second = input->second, output = input->output;
    struct tweedstork_write_answer a;

    if (input->call == WRITE_TXT)
        a = implementation->write_txt(first.at, first.length, output.at, output.length);
    else if (input->call == WRITE_POLICY)
        a = implementation->write_policy(input->mode, input->lifetime, first.at, first.length, second.at, second.length, output.at, output.length);
    else
        a = implementation->rewrite_policy(first.at, first.length, output.at, output.length);
    return (struct answer){{a.number, a.length}};
}

struct answer make_call(const struct implementation *implementation, const struct input *input, size_t step)
{
    struct bytes first = input->first, second = input->second, output = input->output;

    switch (input->call) {
    case READ_TXT: {
        struct tweedstork_txt_answer a = implementation->read_txt(first.at, first.length, second.at, second.length, output.at, output.length);
        return (struct answer){{a.number, a.id_start, a.id_length}};
    }
    case READ_POLICY: {
        struct tweedstork_policy_answer a = implementation->read_policy(first.at, first.length);
        return (struct answer){{a.number, a.mode, a.lifetime, a.mx_count, a.line, a.offset}};
    }
    case NEXT_HOST: {
        struct tweedstork_message_answer a = implementation->next_host(TWEEDSTORK_MX_ANSWERED, first.at, first.length, second.at, second.length);
        return (struct answer){{a.number, a.position}};
    }
    case CACHE_STORE:
        return call_cache_store(implementation, &input->cache);
    case CACHE_LOOKUP:
        return call_cache_lookup(implementation, &input->cache, output);
    case WRITE_TXT:
    case WRITE_POLICY:
    case REWRITE_POLICY:
        return call_publishing(implementation, input);
    case READ_CERTIFICATE:
        return call_read_certificate(implementation, input);
    case JUDGE_HOST_CERTIFICATE:
        return call_judge_host_certificate(implementation, &input->facts[step]);
    case JUDGE_HOST:
        break;
    }
    return call_judge_host(implementation, &input->facts[step]);
}

uint64_t make_calls(const struct implementation *implementation, const struct input *input)
{
    uint64_t sum = 0;

    for (size_t step = 0; step < input->steps; step++)
        sum += make_call(implementation, input, step).fields[0];
    return sum;
}

/* Dots in the output, so that a byte that isn't written is seen; all of the cache as it must be before the call. */
static void prepare(const struct input *input)
{
    if (input->output.length != 0)
        memset(input->output.at, '.', input->output.length);
    if (input->cache.lent != NULL)
        memcpy(input->cache.lent, input->cache.before, sizeof *input->cache.lent);
}

/* Does the lent cache hold what it must after the call? The padding of the entry that a store writes may be anything. */
static int check_cache(const struct cache_call *c, int is_store)
{
    struct tweedstork_cache_entry *entry = &c->lent->table[c->place];
    size_t start = offsetof(struct tweedstork_cache_entry, id) + sizeof entry->id, end = offsetof(struct tweedstork_cache_entry, fetched);

    if (is_store)
        memcpy((uint8_t *)entry + start, (const uint8_t *)&c->after->table[c->place] + start, end - start);
    return memcmp(c->lent, c->after, sizeof *c->lent) == 0;
}

static void print_answer(const char *word, const struct answer *answer)
{
    fprintf(stderr, "%s", word);
    for (size_t i = 0; i < ANSWER_FIELDS; i++)
        fprintf(stderr, " %" PRIu64, answer->fields[i]);
}

static int check_call(const struct implementation *implementation, const struct input *input, size_t step)
{
    const struct answer *expected = &input->expected[step];

    prepare(input);
    struct answer got = make_call(implementation, input, step);
    int same = memcmp(&got, expected, sizeof got) == 0;
    if (input->text.length != 0 && memcmp(input->output.at, input->text.at, input->text.length) != 0)
        same = 0;
    if (input->cache.lent != NULL && !check_cache(&input->cache, input->call == CACHE_STORE))
        same = 0;
    if (!same) {
        fprintf(stderr, "bench: %s, \"%s\" (table %d), call %zu:", implementation->name, input->name, (int)input->table, step);
        print_answer(" expected", expected);
        print_answer(", got", &got);
        fprintf(stderr, ", or something else in the output or the cache\n");
    }
    return same;
}

int check_answers(const struct inputs *inputs)
{
    for (size_t i = 0; i < inputs->count; i++)
        for (size_t k = 0; k < IMPLEMENTATIONS; k++)
            for (size_t step = 0; step < inputs->at[i].steps; step++)
                if (!check_call(&implementations[k], &inputs->at[i], step))
                    return 0;
    return 1;
}
