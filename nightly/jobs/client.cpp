// Clients and workers of a queue of jobs by the reference library. Usage: client WORD PORT ..
//
//   submit PORT JOB..: submits each job, and prints its output
//   work PORT JOBS: takes and does so many jobs, one after another: the output is the job's text, reversed
//   die PORT: takes a job, prints it, and keeps it until the program is killed
//   drop PORT: takes a job, prints it, drops its task, and then takes it again
//   give-up PORT: asks for a job, gives that up, and is silent for half a second
//   many PORT WORKERS JOBS: so many workers, each on a connection of its own, do JOBS jobs that one client submits, 64 at a time; every
//     tenth job's handle is dropped, and every seventh task. Each output must be right
#include "jobs.capnp.h"
#include <capnp/ez-rpc.h>
#include <kj/async-io.h>
#include <kj/timer.h>
#include <kj/vector.h>
#include <stdio.h>
#include <stdlib.h>
#include <string.h>
#include <algorithm>
#include <string>

static std::string reversed(kj::StringPtr text) {
  std::string all(text.begin(), text.end());
  std::reverse(all.begin(), all.end());
  return all;
}

static void fail(kj::StringPtr why) {
  fprintf(stderr, "%s\n", why.cStr());
  exit(1);
}

static kj::Promise<kj::String> output(Queue::Client& queue, kj::StringPtr job) {
  auto request = queue.submitRequest();
  request.setJob(job);
  return request.send().getHandle().waitRequest().send().then([](auto results) { return kj::str(results.getOutput()); });
}

static kj::Promise<void> finish(Task::Client task, kj::StringPtr job) {
  auto request = task.doneRequest();
  request.setOutput(reversed(job).c_str());
  return request.send().ignoreResult();
}

static void submit(capnp::EzRpcClient& client, char** jobs, int count) {
  auto queue = client.getMain<Queue>();
  for (int at = 0; at < count; at++) printf("%s\n", output(queue, jobs[at]).wait(client.getWaitScope()).cStr());
}

static void work(capnp::EzRpcClient& client, int jobs) {
  auto& scope = client.getWaitScope();
  auto queue = client.getMain<Queue>();
  for (int at = 0; at < jobs; at++) {
    auto taken = queue.takeRequest().send().wait(scope);
    finish(taken.getTask(), taken.getJob()).wait(scope);
  }
}

static void say(kj::StringPtr job) {
  printf("%s\n", job.cStr());
  fflush(stdout);
}

static void die(capnp::EzRpcClient& client) {
  auto taken = client.getMain<Queue>().takeRequest().send().wait(client.getWaitScope());
  say(taken.getJob());
  kj::Promise<void>(kj::NEVER_DONE).wait(client.getWaitScope());
}

static void drop(capnp::EzRpcClient& client) {
  auto& scope = client.getWaitScope();
  auto queue = client.getMain<Queue>();
  for (int at = 0; at < 2; at++) {
    auto taken = queue.takeRequest().send().wait(scope);
    say(taken.getJob());
    if (at == 1) finish(taken.getTask(), taken.getJob()).wait(scope);
  }
}

static void give_up(capnp::EzRpcClient& client) {
  auto& scope = client.getWaitScope();
  auto& timer = client.getIoProvider().getTimer();
  auto queue = client.getMain<Queue>();
  { auto taken = queue.takeRequest().send(); timer.afterDelay(100 * kj::MILLISECONDS).wait(scope); }
  say("given up");
  timer.afterDelay(500 * kj::MILLISECONDS).wait(scope);
}

// Does jobs until its connection ends. Every seventh task is dropped.
static kj::Promise<void> works(Queue::Client queue, int& taken) {
  return queue.takeRequest().send().then([queue, &taken](auto results) mutable -> kj::Promise<void> {
    auto job = kj::str(results.getJob());
    if (taken++ % 7 == 6) return works(queue, taken);
    return finish(results.getTask(), job).then([queue, &taken]() mutable { return works(queue, taken); });
  });
}

static void many(int port, int workers, int jobs) {
  capnp::EzRpcClient client("127.0.0.1", port);
  auto& scope = client.getWaitScope();
  auto queue = client.getMain<Queue>();
  int taken = 0, right = 0;
  kj::Vector<kj::Own<capnp::EzRpcClient>> clients;
  kj::Vector<kj::Promise<void>> busy;
  for (int at = 0; at < workers; at++) {
    clients.add(kj::heap<capnp::EzRpcClient>("127.0.0.1", port));
    busy.add(works(clients.back()->getMain<Queue>(), taken).eagerlyEvaluate([](kj::Exception&& why) { fail(why.getDescription()); }));
  }
  for (int at = 0; at < jobs;) {
    auto outputs = kj::heapArrayBuilder<kj::Promise<void>>(std::min(64, jobs - at));
    for (size_t left = std::min(64, jobs - at); left > 0; left--, at++) {
      auto job = kj::str("job ", at);
      if (at % 10 == 9) {  // its handle goes once it is there
        auto request = queue.submitRequest();
        request.setJob(job);
        outputs.add(request.send().ignoreResult());
      } else {
        outputs.add(output(queue, job).then([job = kj::mv(job), &right](kj::String came) {
          if (reversed(job) != came.cStr()) fail(kj::str(job, " came to ", came));
          right++;
        }));
      }
    }
    kj::joinPromises(outputs.finish()).wait(scope);
  }
  busy.clear();
  printf("%d outputs were right, %d jobs were taken\n", right, taken);
}

int main(int argc, char** argv) {
  std::string word = argc > 2 ? argv[1] : "";
  int port = argc > 2 ? atoi(argv[2]) : 0;
  if (word == "many" && argc == 5) {
    many(port, atoi(argv[3]), atoi(argv[4]));
    return 0;
  }
  capnp::EzRpcClient client("127.0.0.1", port);
  if (word == "submit") submit(client, argv + 3, argc - 3);
  else if (word == "work" && argc == 4) work(client, atoi(argv[3]));
  else if (word == "die") die(client);
  else if (word == "drop") drop(client);
  else if (word == "give-up") give_up(client);
  else fail("usage: client WORD PORT ..");
}
