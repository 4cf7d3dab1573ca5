// Generated code beside the reference library's: fields [PEOPLE]. Both read the same address book in one process: of each person two texts, a
// list of phones, and of the phone a text and an enum.
#include "addressbook.capnp.h"
#include "cp_probes.h"
#include <algorithm>
#include <capnp/serialize.h>
#include <cstdio>
#include <cstdlib>
#include <ctime>

static const uint32_t turns = 200;

// Nanoseconds of processor time: what else runs isn't counted.
static double now() {
  timespec time;
  clock_gettime(CLOCK_THREAD_CPUTIME_ID, &time);
  return 1e9 * time.tv_sec + time.tv_nsec;
}

// The least time of thirty runs for a person, in nanoseconds.
template <class Job>
static double least(uint32_t people, uint64_t wanted, Job job) {
  double best = 1e18;
  for (int run = 0; run < 30; run++) {
    double start = now();
    uint64_t sum = job();
    double took = now() - start;
    if (sum != wanted) {
      printf("read otherwise: %llu, and not %llu\n", (unsigned long long)sum, (unsigned long long)wanted);
      exit(1);
    }
    best = std::min(best, took / turns / people);
  }
  return best;
}

static uint64_t read(AddressBook::Reader book) {
  uint64_t sum = 0;
  for (auto person : book.getPeople()) {
    sum += person.getName().size() + person.getEmail().size();
    for (auto phone : person.getPhones()) sum += phone.getNumber().size() + (uint16_t)phone.getType();
  }
  return sum;
}

static kj::Array<capnp::word> book_of(uint32_t people) {
  capnp::MallocMessageBuilder message;
  auto list = message.initRoot<AddressBook>().initPeople(people);
  for (uint32_t i = 0; i < people; i++) {
    auto person = list[i];
    person.setId(i);
    person.setName("Alice Example");
    person.setEmail("alice@example.com");
    auto phone = person.initPhones(1)[0];
    phone.setNumber("555-1212");
    phone.setType((Person::PhoneNumber::Type)(i % 3));
    person.setAge(i % 90);
    if (i % 2) person.getEmployment().setSchool("MIT");
  }
  return capnp::messageToFlatArray(message);
}

int main(int argc, char** argv) {
  uint32_t people = argc > 1 ? atoi(argv[1]) : 1000;
  auto words = book_of(people);
  auto bytes = words.asBytes();
  capnp::ReaderOptions options;
  options.traversalLimitInWords = ~0ull >> 1;
  capnp::FlatArrayMessageReader once(words, options);
  uint64_t wanted = read(once.getRoot<AddressBook>()) * turns;
  double theirs = least(people, wanted, [&] {
    uint64_t sum = 0;
    for (uint32_t turn = 0; turn < turns; turn++) {
      capnp::FlatArrayMessageReader reader(words, options);
      sum += read(reader.getRoot<AddressBook>());
    }
    return sum;
  });
  for (bool anew : {false, true}) {
    double ours = least(people, wanted, [&] { return cpb_read_book(bytes.begin(), bytes.size(), turns, anew); });
    printf("%-22s %6.2f ns a person  C++ %6.2f  ratio %4.2f\n", anew ? "checked each time" : "checked once", ours, theirs, ours / theirs);
  }
}
