// velodrome_gtest.hpp: each test of GoogleTest is a session, and fails where its blocks were not
// atomic.
//
//     testing::UnitTest::GetInstance()->listeners().Append(new velodrome::gtest_listener);
//
// The explanation stands in the failure; log and names are kept in VELODROME_LOGS (or here) as
// SUITE.TEST.vlog. A test that could not be watched to its end, or recorded nothing, fails and says
// why; with VELODROME_INCOMPLETE=warn it is skipped, which CTest tells, too. VELODROME_NOISE=4
// holds up one event in four.
#ifndef VELODROME_GTEST_HPP
#define VELODROME_GTEST_HPP
#include "velodrome.hpp"
#include <gtest/gtest.h>
#include <memory>

namespace velodrome {
inline namespace VELODROME_KIND_ {

class gtest_listener : public testing::EmptyTestEventListener {
    void OnTestStart(const testing::TestInfo &) override {
        session_ = std::make_unique<session>(options::environment());
    }
    void OnTestEnd(const testing::TestInfo &test) override {
        if (!session_)
            return;
        const result r =
            session_->finish((std::string(test.test_suite_name()) + "." + test.name()).c_str());
        session_.reset();
        if (r.fails)
            ADD_FAILURE_AT(test.file(), test.line()) << r.words;
        else if (!r)
            GTEST_SKIP() << "velodrome: " << r.words;
    }
    std::unique_ptr<session> session_;
};

} // namespace VELODROME_KIND_
} // namespace velodrome
#endif
