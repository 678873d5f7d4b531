// Whether the yardstick does what the proved index does: random histories of calls on both, sound and damaged.
#pragma once

#include <cstddef>

// Plays the histories and ends the program with a message at the first difference; answers how many calls agreed.
size_t compare_all();
