/* Calls that camlheap.h has inline, as symbols of the library, for languages that can't include it. */
#include "camlheap.h"

uint32_t camlheap_wrapped_map_bind(camlheap_domain *domain, camlheap_bed *bed, uint8_t map, uint8_t key, uint8_t item, camlheap_reply *reply);
uint32_t camlheap_wrapped_map_sweep(camlheap_domain *domain, camlheap_bed *bed, uint8_t map, camlheap_reply *reply);
uint32_t camlheap_wrapped_map_clean(camlheap_domain *domain, camlheap_bed *bed, uint8_t map, camlheap_reply *reply);
uint32_t camlheap_wrapped_map_count(camlheap_domain *domain, camlheap_bed *bed, uint8_t map, camlheap_reply *reply);
const char *camlheap_wrapped_says(uint32_t told);

uint32_t camlheap_wrapped_map_bind(camlheap_domain *domain, camlheap_bed *bed, uint8_t map, uint8_t key, uint8_t item, camlheap_reply *reply) {
  return camlheap_map_bind_beside(domain, bed, map, key, item, reply);
}
uint32_t camlheap_wrapped_map_sweep(camlheap_domain *domain, camlheap_bed *bed, uint8_t map, camlheap_reply *reply) {
  return camlheap_map_sweep_beside(domain, bed, map, reply);
}
uint32_t camlheap_wrapped_map_clean(camlheap_domain *domain, camlheap_bed *bed, uint8_t map, camlheap_reply *reply) {
  return camlheap_map_clean_beside(domain, bed, map, reply);
}
uint32_t camlheap_wrapped_map_count(camlheap_domain *domain, camlheap_bed *bed, uint8_t map, camlheap_reply *reply) {
  return camlheap_map_count_beside(domain, bed, map, reply);
}
const char *camlheap_wrapped_says(uint32_t told) { return camlheap_says(told); }
