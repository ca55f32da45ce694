// One lock, held for one read and for one write. Without the lock's own events the data's conflict
// stays.
#include "check_then_act.h"

int main(void) {
    bump_by_two(50);
    return 0;
}
