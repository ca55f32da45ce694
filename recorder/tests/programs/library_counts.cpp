// What the library of C++ does itself: the count of a shared pointer, and a static that is made
// once. `look_twice` is wrong: it asks who else has the pointer, and asks again.
#include <memory>
#include <string>
#include <thread>
#include <unistd.h>
#include <vector>

static std::shared_ptr<int> shared = std::make_shared<int>(7);
static std::shared_ptr<int> watched = std::make_shared<int>(7);

struct Registry {
    std::string name;
    Registry() {
        usleep(2000);
        name = "registry";
    }
};
static Registry &instance() {
    static Registry only;
    return only;
}
static size_t use_static() {
    return instance().name.size();
}
static int use_copy() {
    std::shared_ptr<int> mine = shared;
    return *mine;
}
static long look_twice() {
    std::shared_ptr<int> mine = watched;
    long before = mine.use_count();
    usleep(20);
    return mine.use_count() - before;
}
int main() {
    std::vector<std::thread> threads;
    for (int k = 0; k < 3; k++)
        threads.emplace_back([] {
            use_static();
            for (int i = 0; i < 100; i++) {
                use_copy();
                look_twice();
            }
        });
    for (auto &t : threads)
        t.join();
}
