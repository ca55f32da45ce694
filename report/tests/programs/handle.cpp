// WRONG: and it dies of it.
#include <cstdio>
#include <cstdlib>
#include <mutex>
#include <thread>
std::mutex m;
int *data = nullptr;
bool has() {
    std::lock_guard<std::mutex> g(m);
    return data != nullptr;
}
int use() {
    std::lock_guard<std::mutex> g(m);
    return *data;
}
void drop() {
    std::lock_guard<std::mutex> g(m);
    delete data;
    data = nullptr;
}
void make() {
    std::lock_guard<std::mutex> g(m);
    if (!data)
        data = new int(1);
}
int read_it() {
    if (!has())
        return 0;
    std::this_thread::yield();
    return use();
}
int main() {
    std::thread a([] {
        for (int i = 0; i < 3000; ++i) {
            make();
            drop();
        }
    }),
        b([] {
            long s = 0;
            for (int i = 0; i < 3000; ++i)
                s += read_it();
            std::printf("%ld\n", s);
        });
    a.join();
    b.join();
}
