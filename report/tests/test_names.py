"""Names as a person would say them."""

import unittest

import support
from velodrome_report import names

STRING = "std::__cxx11::basic_string<char, std::char_traits<char>, std::allocator<char> >"


class Short(unittest.TestCase):
    def test_parameters_are_left_out(self) -> None:
        for whole, short in (
            ("Pool::acquire()", "Pool::acquire()"),
            ("client(Pool&, int, int*)", "client(..)"),
            ("Pool::available() const", "Pool::available()"),
            ("add", "add"),
            ("Map::operator()(int) const", "Map::operator()(..)"),
            ("main::{lambda(int)#1}::operator()(int) const", "main::{lambda#1}"),
            ("operator new(unsigned long)", "operator new(..)"),
            ("v(void (*)(int))", "v(..)"),
            ("Account.deposit (bank.py:8)", "Account.deposit (bank.py:8)"),
            ("move money (my bank.c:8)", "move money (my bank.c:8)"),
            ("deposit (bank_test.cpp:6)", "deposit (bank_test.cpp:6)"),
        ):
            with self.subTest(whole):
                self.assertEqual(names.without_parameters(whole), short)

    def test_the_library_is_left_out(self) -> None:
        for whole, plain in (
            (f"Config::get({STRING} const&)", "Config::get(std::string const&)"),
            ("get[abi:cxx11](int)", "get(int)"),
            ("f(std::vector<int, std::allocator<int> >&)", "f(std::vector<int>&)"),
            (
                "f(std::map<int, long, std::less<int>,"
                " std::allocator<std::pair<int const, long> > >)",
                "f(std::map<int, long>)",
            ),
            ("f(std::unique_ptr<A, std::default_delete<A> >)", "f(std::unique_ptr<A>)"),
        ):
            with self.subTest(whole):
                self.assertEqual(names.plain(whole), plain)

    def test_return_types_are_left_out(self) -> None:
        whole = "int& std::deque<int, std::allocator<int> >::emplace_back<int>(int&&)"
        self.assertEqual(names.without_parameters(whole), "std::deque<int>::emplace_back<int>(..)")

    def test_what_is_ambiguous_keeps_its_parameters(self) -> None:
        short = names.short_names(["f(int)", "f(long)", "g(int)"])
        self.assertEqual(short, {"f(int)": "f(int)", "f(long)": "f(long)", "g(int)": "g(..)"})


if __name__ == "__main__":
    unittest.main()
