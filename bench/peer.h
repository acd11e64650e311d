/* The Rust's own files behind C calls, as a peer of the library. Answers: 0 done, 1 no result.

   A length is in bytes. A pointer may be null where its length is 0. No result: the crate panics or gives an error, the
   bytes are off the grammar, a field's content passes 65,535, or a buffer is too short. */
#ifndef PEER_H
#define PEER_H

#include <stdbool.h>
#include <stddef.h>
#include <stdint.h>

/* From bytes to bytes: the buffers as tychodrel_extract and tychodrel_resolve fill them, with zeros behind; without a
   result all zero, the scope too. */
int peer_extract(const uint8_t *files, size_t files_len, uint16_t file, bool config, const uint8_t *externals,
                 size_t externals_len, const uint8_t *table, size_t table_len, const uint8_t *tree, size_t tree_len,
                 uint8_t scope[770], uint8_t *work, size_t work_len, uint8_t *out, size_t out_len, uint8_t *records,
                 size_t records_len);
int peer_resolve(const uint8_t *files, size_t files_len, const uint8_t *table, size_t table_len, const uint8_t *records,
                 size_t records_len, uint8_t scope[770], uint8_t *list, size_t list_len);

/* From tree to tree: all is read and set up before; `peer_run` is the crate's own call alone, once for each prepared
   value. Null: no result. `peer_free` takes null too. */
struct peer;
struct peer *peer_prepare_extract(const uint8_t *files, size_t files_len, uint16_t file, bool config,
                                  const uint8_t *externals, size_t externals_len, const uint8_t *table,
                                  size_t table_len, const uint8_t *tree, size_t tree_len);
struct peer *peer_prepare_resolve(const uint8_t *files, size_t files_len, const uint8_t *table, size_t table_len,
                                  const uint8_t *records, size_t records_len);
int peer_run(struct peer *peer);
void peer_free(struct peer *peer);

#endif
