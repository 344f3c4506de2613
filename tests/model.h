/* model.h: everything that C can call, a second time. model.c, model_groups.c and model_rounds.c are written from the rules in words, with the plainest
 * means, so that they and the library have nothing in common but the document that both follow. The parameters are those of include/wiregantry.h. */
#ifndef MODEL_H
#define MODEL_H

#include "wiregantry.h"

uint32_t model_fresh(uint64_t *words, size_t n_words, wg_parcel *slots, size_t n_slots, wg_ledger *ledger,
                     uint64_t sites, uint64_t capacity, uint32_t first);
uint32_t model_step(uint64_t *words, size_t n_words, wg_parcel *slots, size_t n_slots, wg_ledger *ledger,
                    uint64_t sites, uint64_t capacity,
                    uint64_t kind, uint64_t first, uint64_t second, uint64_t id, uint64_t *value);
uint32_t model_burst(uint64_t *words, size_t n_words, wg_parcel *slots, size_t n_slots, wg_ledger *ledger,
                     uint64_t sites, uint64_t capacity,
                     const uint64_t *asks, size_t n_asks, uint64_t *answers, size_t n_answers);
uint32_t model_lag(uint64_t *words, size_t n_words, wg_parcel *slots, size_t n_slots, wg_ledger *ledger,
                   uint64_t sites, uint64_t capacity,
                   uint64_t from, uint64_t to, int32_t *lag);
uint32_t model_write_group(const uint64_t *entries, size_t n_words, uint8_t *out, size_t room, size_t *written);
uint32_t model_read_group(const uint8_t *bytes, size_t n, uint64_t *entries, size_t n_words, size_t *count);
uint32_t model_absorb(uint64_t *words, size_t n_words, wg_parcel *slots, size_t n_slots, wg_ledger *ledger,
                      uint64_t sites, uint64_t capacity,
                      uint64_t site, const uint8_t *bytes, size_t n, uint64_t *rose);
uint32_t model_repair(uint64_t *words, size_t n_words, wg_parcel *slots, size_t n_slots, wg_ledger *ledger,
                      uint64_t sites, uint64_t capacity, uint64_t *merges);
uint32_t model_members(const uint64_t *table, size_t n_words, const uint64_t *ids, size_t n_ids,
                       uint8_t *answers, size_t n_answers);
uint32_t model_read_line(const uint8_t *line, size_t n, uint8_t *area, size_t n_area);
uint32_t model_check_line(uint64_t kind, uint64_t first, uint64_t second, uint64_t id, size_t room);
size_t model_write_line(uint64_t kind, uint64_t first, uint64_t second, uint64_t id, uint8_t *buffer, size_t room);
uint32_t model_report(const uint8_t *input, size_t n, uint8_t *out, size_t room, size_t *written);

/* What no call of the library does: the line without the zeros in front of its numbers. `bare` has as many bytes as `line`. Returns how many are left. */
size_t model_unpadded(const uint8_t *line, size_t n, uint8_t *bare);

#endif
