// The exports of nightly/probes. Nothing checks these lines against its source.
// A slice is a pointer and a length, an allocator is nothing. An answer of 0 says that there was nothing, a fault, or no memory.
#pragma once
#include <cstddef>
#include <cstdint>

extern "C" {
// How many frames a stream has, each of which gives what is asked for: at 0 its words, at 1 a view of its message, at 2 an owned tree.
uint64_t cpb_read_frames(const uint8_t* bytes, size_t length, uint8_t kind);
uint64_t cpb_packed_frames(const uint8_t* bytes, size_t length, uint8_t kind);
// Reads a plain stream's frames into owned trees and writes these `turns` times. Gives the number of bytes of a turn, and puts
// what fits of the last into the buffer.
size_t cpb_write_frames(const uint8_t* bytes, size_t length, uint32_t turns, uint8_t* buffer, size_t size);
// The same three within limits on nesting and traversal; what is written, once, is in segments of at most `words` words.
uint64_t cpb_read_frames_within(const uint8_t* bytes, size_t length, uint8_t kind, uint32_t nesting, uint32_t traversal);
uint64_t cpb_packed_frames_within(const uint8_t* bytes, size_t length, uint8_t kind, uint32_t nesting, uint32_t traversal);
size_t cpb_write_frames_within(const uint8_t* bytes, size_t length, uint32_t words, uint32_t nesting, uint32_t traversal, uint8_t* buffer, size_t size);
// Reads the address book that is the first message of a plain stream this many times: the sum of all its people's texts' lengths and of the
// numbers of their phones' types. Its message is checked anew each time, or once.
uint64_t cpb_read_book(const uint8_t* bytes, size_t length, uint32_t turns, bool anew);
// Plays a script on a new vat (docs/TESTING.md has its lines). Gives the number of bytes of the events' lines but the first `skipped`,
// with all that follows after each, and puts what fits of them into the buffer.
size_t cpb_play(const uint8_t* script, size_t length, size_t skipped, uint8_t* buffer, size_t size);
// What a server wrote: the number of bytes, and how it ended: 0 where the messages ended, 1 where the vat closed, 2 where what was read is
// refused, 3 where a device failed, 4 where memory ran out.
struct cpb_served {
  size_t written;
  uint8_t how;
};
// Serves a Script, a Cell and a Desk, objects 0 to 2, to a peer that sends these bytes, a piece of at most `first` and then pieces of at
// most `piece` (0 counts as 1). Of the Script's first calls each is answered with a capability, which the next number of `named` says: an
// object, or from 2^32 on an import, counted from there; 0 leaves it without an answer, as each later call is left. Puts what fits of what
// is written into the buffer.
cpb_served cpb_serve(const uint8_t* bytes, size_t length, bool packed, size_t first, size_t piece, const uint64_t* named, size_t numbers,
                     uint8_t* buffer, size_t size);
// The number of bytes of lines that say what was given, and of what was written.
struct cpb_told {
  size_t lines, written;
};
// Plays a script on a client whose peer sends these bytes, in pieces as above. The lines of a script are `bootstrap`, `call TARGET i=H m=N
// {T caps[..]}`, `wait N` and `finish N` of question N, `release N` of import N, and `serve`, which takes messages until they end. Each gives
// a line: the question, its outcome, `done`, or why it is refused; a last one says what was taken and sent in all, and why the vat closed.
// Puts what fits of these lines into `lines`, and of what the client wrote into the buffer. Where memory runs out there are no lines.
cpb_told cpb_call(const uint8_t* script, size_t script_length, const uint8_t* bytes, size_t length, bool packed, size_t first, size_t piece,
                  uint8_t* lines, size_t lines_size, uint8_t* buffer, size_t size);
// Feeds these bytes to a relay, in pieces as above, and ends them. At `form` 0 a message goes out as it was read, at 1 anew in the plain
// form, else anew in the packed one. Puts what fits of what went out into the buffer, and of the fault that ended it, if there was one,
// into `line`.
cpb_told cpb_relay(const uint8_t* bytes, size_t length, bool packed, uint8_t form, size_t first, size_t piece, uint8_t* line, size_t line_size,
                   uint8_t* buffer, size_t size);
}
