/*
 * The fuzz target of tweedstork_read_certificate. Lines of an input:
 *   1     the size of the places: +N or -N from what is to be written (0 where that is refused), or N
 *   2     changes to the certificate (decode.h), which is a
 *   3..   the certificate, as der.h has it
 */
#include "der.h"
#include "target.h"

enum { CERTIFICATE, PLACES };
static const char *const slices[] = {"certificate", "places", NULL};
static const char *const outputs[] = {"places", NULL};
static const char *const numbers[] = {NULL};
static const char *const fields[] = {
    "number", "length", "offset", "key_start", "key_length", "dns_id_count", "common_name_given", "common_name_start",
    "common_name_length", NULL};
static const uint8_t answers[] = {15, 83, 90, 91, 0};

static void ask(int independent, const struct call *call, uint64_t *answer)
{
    __typeof__(tweedstork_read_certificate) *read_certificate =
        independent ? independent_read_certificate : tweedstork_read_certificate;
    struct tweedstork_certificate_answer a = read_certificate(LENT(call, CERTIFICATE), LENT(call, PLACES));
    answer[0] = a.number;
    answer[1] = a.length;
    answer[2] = a.offset;
    answer[3] = a.key_start;
    answer[4] = a.key_length;
    answer[5] = a.dns_id_count;
    answer[6] = a.common_name_given;
    answer[7] = a.common_name_start;
    answer[8] = a.common_name_length;
}

/* How many bytes are to be written: the independent implementation is asked with as much room as is ever needed. */
static size_t to_be_written(const struct call *call)
{
    struct call roomy = *call;
    uint64_t answer[MOST_FIELDS];
    roomy.slices[PLACES].length = TWEEDSTORK_PLACES_ROOM;
    ask(1, &roomy, answer);
    return (size_t)answer[1];
}

static void decode(struct text input, struct call *call)
{
    struct text size = take(&input, '\n'), edits = take(&input, '\n');
    put_der(input, &call->slices[CERTIFICATE], NULL);
    edit(edits, call->slices, PLACES);
    put_output(size, to_be_written(call), &call->slices[PLACES]);
}

const struct target target = {"certificate", answers, numbers, slices, fields, outputs, NULL, decode, NULL, ask};
