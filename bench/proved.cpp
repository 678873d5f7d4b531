// The proved index: the functions of include/upbit.h, linked from the library that `tools/staticlib.sh` makes.
#include "calls.hpp"

const Calls proved_calls = {
    upbit_room_for, upbit_load,  upbit_insert, upbit_update, upbit_delete, upbit_merge,
    upbit_value,    upbit_query, upbit_dump,   upbit_audit,  upbit_pack,   upbit_unpack,
};
