// The same address book by the reference library: a message anew for each book, or in a first segment that is used again.
#include "addressbook.capnp.h"
#include <algorithm>
#include <capnp/serialize.h>
#include <chrono>
#include <cstdio>
#include <vector>

static const uint32_t people = 1000;

static size_t book(capnp::MessageBuilder& message) {
  auto list = message.initRoot<AddressBook>().initPeople(people);
  for (uint32_t i = 0; i < people; i++) {
    auto person = list[i];
    person.setId(i);
    person.setName("Alice Example");
    person.setEmail("alice@example.com");
    auto phone = person.initPhones(1)[0];
    phone.setNumber("555-1212");
    phone.setType(Person::PhoneNumber::Type::HOME);
    person.getEmployment().setEmployer("MIT");
    person.setAge(i % 90);
    person.setActive(i % 3 == 0);
  }
  return capnp::messageToFlatArray(message).asBytes().size();
}

// The least time of 300 runs for a person, in nanoseconds.
template <class Job>
static double least(Job job) {
  double best = 1e18;
  for (int run = 0; run < 300; run++) {
    auto start = std::chrono::steady_clock::now();
    job();
    std::chrono::duration<double, std::nano> took = std::chrono::steady_clock::now() - start;
    best = std::min(best, took.count() / people);
  }
  return best;
}

int main() {
  size_t bytes = 0;
  double anew = least([&] {
    capnp::MallocMessageBuilder message;
    bytes = book(message);
  });
  std::vector<capnp::word> segment(1 << 16);
  double again = least([&] {
    capnp::MallocMessageBuilder message(kj::arrayPtr(segment.data(), segment.size()));
    book(message);
  });
  printf("C++: %.0f ns a person; %.0f in a segment that is used again; %zu bytes\n", anew, again, bytes);
}
