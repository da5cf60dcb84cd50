/* Written by tools/check_exports.py. Don't edit. */
#ifndef TLS_CODEC_ALL_H
#define TLS_CODEC_ALL_H

/* The headers of the archives that don't allocate. Link those whose calls you use:
   libtls_codec_lengths.a, libtls_codec_tls13.a, libtls_codec_mls.a. */

#include "lengths.h"
#include "mls.h"
#include "tls13.h"

#endif
