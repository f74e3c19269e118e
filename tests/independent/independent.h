/*
 * The independent implementation as C meets it: the library's calls once more, with the prefix independent_ and the same
 * arguments and answers (src/exports.rs; the archive is libindependent_rules.a).
 */
#ifndef INDEPENDENT_H
#define INDEPENDENT_H

#include "tweedstork.h"

__typeof__(tweedstork_read_txt) independent_read_txt;
__typeof__(tweedstork_read_policy) independent_read_policy;
__typeof__(tweedstork_judge_host) independent_judge_host;
__typeof__(tweedstork_next_host) independent_next_host;
__typeof__(tweedstork_cache_store) independent_cache_store;
__typeof__(tweedstork_cache_lookup) independent_cache_lookup;
__typeof__(tweedstork_write_txt) independent_write_txt;
__typeof__(tweedstork_write_policy) independent_write_policy;
__typeof__(tweedstork_rewrite_policy) independent_rewrite_policy;
__typeof__(tweedstork_read_certificate) independent_read_certificate;
__typeof__(tweedstork_judge_host_certificate) independent_judge_host_certificate;

#endif
