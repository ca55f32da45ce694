// mixed: one program of a file with VELODROME_OFF and one without, which would see different
// members. It does not link.
#include "velodrome.hpp"

struct account {
    velodrome::var<int> balance;
};
int look(velodrome::var<int> *balance);
#ifdef VELODROME_OFF
int look(velodrome::var<int> *balance) {
    return *balance;
}
#else
int main() {
    account a;
    return look(&a.balance);
}
#endif
