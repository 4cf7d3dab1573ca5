// Trees that own their parts, as `Tree` of cp_tree does, and messages that the reference library builds of them.
#pragma once
#include <capnp/any.h>
#include <capnp/message.h>
#include <capnp/serialize.h>
#include <cstdint>
#include <cstring>
#include <vector>

namespace owned {
using capnp::AnyList;
using capnp::AnyPointer;
using capnp::AnyStruct;
using capnp::ElementSize;

struct Tree;

struct Body {
  std::vector<uint64_t> words;
  std::vector<Tree> pointers;
};

struct Tree {
  enum { Nothing, Struct, Numbers, Pointers, Structs } kind = Nothing;
  ElementSize size = ElementSize::VOID;
  uint32_t count = 0;
  // Of a struct; a list's numbers are its words, and a list's pointers its pointers.
  Body body;
  std::vector<Body> elements;
};

inline Tree read(AnyPointer::Reader pointer);

inline std::vector<uint64_t> words_of(kj::ArrayPtr<const kj::byte> bytes) {
  std::vector<uint64_t> words((bytes.size() + 7) / 8);
  if (bytes.size()) memcpy(words.data(), bytes.begin(), bytes.size());
  return words;
}

inline Body read(AnyStruct::Reader body) {
  Body found{words_of(body.getDataSection()), {}};
  auto pointers = body.getPointerSection();
  found.pointers.reserve(pointers.size());
  for (auto pointer : pointers) found.pointers.push_back(read(pointer));
  return found;
}

inline Tree read(AnyList::Reader list) {
  Tree tree;
  tree.size = list.getElementSize();
  tree.count = list.size();
  if (tree.size == ElementSize::POINTER) {
    tree.kind = Tree::Pointers;
    tree.body.pointers.reserve(tree.count);
    for (auto pointer : list.as<capnp::List<AnyPointer>>()) tree.body.pointers.push_back(read(pointer));
  } else if (tree.size == ElementSize::INLINE_COMPOSITE) {
    tree.kind = Tree::Structs;
    tree.elements.reserve(tree.count);
    for (auto body : list.as<capnp::List<AnyStruct>>()) tree.elements.push_back(read(body));
  } else {
    tree.kind = Tree::Numbers;
    tree.body.words = words_of(list.getRawBytes());
  }
  return tree;
}

// A capability is read as nothing: a message that is built anew has no table for it.
inline Tree read(AnyPointer::Reader pointer) {
  if (pointer.isList()) return read(pointer.getAs<AnyList>());
  Tree tree;
  if (pointer.isStruct()) {
    tree.kind = Tree::Struct;
    tree.body = read(pointer.getAs<AnyStruct>());
  }
  return tree;
}

inline void build(AnyPointer::Builder pointer, const Tree& tree);

inline void build(AnyStruct::Builder place, const Body& body) {
  if (!body.words.empty()) memcpy(place.getDataSection().begin(), body.words.data(), 8 * body.words.size());
  auto pointers = place.getPointerSection();
  for (size_t i = 0; i < body.pointers.size(); i++) build(pointers[i], body.pointers[i]);
}

inline void build(AnyPointer::Builder pointer, const Tree& tree) {
  if (tree.kind == Tree::Struct) {
    build(pointer.initAsAnyStruct(tree.body.words.size(), tree.body.pointers.size()), tree.body);
  } else if (tree.kind == Tree::Pointers) {
    auto list = pointer.initAsAnyList(ElementSize::POINTER, tree.count).as<capnp::List<AnyPointer>>();
    for (uint32_t i = 0; i < tree.count; i++) build(list[i], tree.body.pointers[i]);
  } else if (tree.kind == Tree::Structs) {
    size_t words = tree.count ? tree.elements[0].words.size() : 0;
    size_t pointers = tree.count ? tree.elements[0].pointers.size() : 0;
    auto list = pointer.initAsListOfAnyStruct(words, pointers, tree.count);
    for (uint32_t i = 0; i < tree.count; i++) build(list[i], tree.elements[i]);
  } else if (tree.kind == Tree::Numbers) {
    auto bytes = pointer.initAsAnyList(tree.size, tree.count).asReader().getRawBytes();
    if (bytes.size()) memcpy(const_cast<kj::byte*>(bytes.begin()), tree.body.words.data(), bytes.size());
  }
}
}  // namespace owned
