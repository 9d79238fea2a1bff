/*
 * agg_merge: the only code of the library that is not proved. The export behind it is proved for two slots that are lent apart, so one slot
 * in both places is refused here, by the pointers, before either is touched.
 */
#include "agg.h"

uint32_t agg_merge_apart(agg_slot *into, agg_slot *from);

uint32_t agg_merge(agg_slot *into, agg_slot *from) {
    return into == from ? AGG_NOT_OPEN : agg_merge_apart(into, from);
}
