// A cache that looks for a key, and puts it in if it is not there: each under the lock, not both.
// With an argument the lock is held over both.
#include <map>
#include <mutex>
#include <string>
#include <thread>
#include <vector>

static std::mutex lock;
static std::map<int, std::string> values;
static int made;
static bool whole;

bool has(int key) {
    std::lock_guard<std::mutex> l(lock);
    return values.count(key) != 0;
}
void put(int key) {
    std::lock_guard<std::mutex> l(lock);
    values[key] = "value " + std::to_string(key);
    made++;
}
void look_up(int key) {
    if (!has(key))
        put(key);
}
void look_up_whole(int key) {
    std::lock_guard<std::mutex> l(lock);
    if (!values.count(key))
        values[key] = "value", made++;
}
void work() {
    for (int key = 0; key < 300; key++)
        whole ? look_up_whole(key) : look_up(key);
}
int main(int n, char **) {
    whole = n > 1;
    std::vector<std::thread> threads;
    for (int i = 0; i < 4; i++)
        threads.emplace_back(work);
    for (auto &t : threads)
        t.join();
    return 0;
}
