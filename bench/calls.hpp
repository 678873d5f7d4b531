// The calls of include/upbit.h as a table, so that the proved library and the yardstick are called in the same way.
#pragma once

#include "upbit.h"

struct Calls {
    decltype(&upbit_room_for) room_for;
    decltype(&upbit_load) load;
    decltype(&upbit_insert) insert;
    decltype(&upbit_update) update;
    decltype(&upbit_delete) remove;
    decltype(&upbit_merge) merge;
    decltype(&upbit_value) value;
    decltype(&upbit_query) query;
    decltype(&upbit_dump) dump;
    decltype(&upbit_audit) audit;
    decltype(&upbit_pack) pack;
    decltype(&upbit_unpack) unpack;
};

extern const Calls proved_calls;
extern const Calls yardstick_calls;
