/*
 * What the benchmark compares the library with, as C meets it: the library's calls once more, with the prefix plain_ and the same
 * arguments and answers.
 */
#ifndef PLAIN_H
#define PLAIN_H

#include "tweedstork.h"

__typeof__(tweedstork_read_txt) plain_read_txt;
__typeof__(tweedstork_read_policy) plain_read_policy;
__typeof__(tweedstork_cache_store) plain_cache_store;
__typeof__(tweedstork_cache_lookup) plain_cache_lookup;
__typeof__(tweedstork_judge_host) plain_judge_host;
__typeof__(tweedstork_read_certificate) plain_read_certificate;
__typeof__(tweedstork_judge_host_certificate) plain_judge_host_certificate;
__typeof__(tweedstork_next_host) plain_next_host;
__typeof__(tweedstork_write_txt) plain_write_txt;
__typeof__(tweedstork_write_policy) plain_write_policy;
__typeof__(tweedstork_rewrite_policy) plain_rewrite_policy;

#endif
