// discarded: a block that would end at once. It compiles with a warning, and -Werror refuses it.
#include "velodrome.hpp"

int main() {
    static vs_object label{0, "b", 0};
    velodrome::atomic_block{label};
    return 0;
}
