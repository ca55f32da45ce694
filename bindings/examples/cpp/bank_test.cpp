#include "bank.hpp"
#include <velodrome_gtest.hpp>

static void two_threads(void (account::*deposit)(long)) {
    account a;
    velodrome::thread one(deposit, &a, 5), two(deposit, &a, 5);
    one.join();
    two.join();
}

TEST(Bank, Careful) {
    two_threads(&account::deposit);
}
TEST(Bank, Careless) {
    two_threads(&account::deposit_carelessly);
} // fails, as soon as a schedule loses a deposit

int main(int argc, char **argv) {
    testing::InitGoogleTest(&argc, argv);
    testing::UnitTest::GetInstance()->listeners().Append(new velodrome::gtest_listener);
    return RUN_ALL_TESTS();
}
