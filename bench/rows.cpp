// The loops of crates/bench_rows in C++, with the same input: `close SIZE GENERATORS WIDTH`, which closes
// vectors under addition modulo the size, `fill COUNT TIMES`, which pushes vectors of width 8 and then
// finds each, or `apply SIZE WIDTH TIMES`, which adds two vectors again and again.
//
// Rows lie end to end, padded with zeros to words of 64 bits. Their index is an open table of slots of 8 bytes.
#include <cstdint>
#include <cstdio>
#include <cstdlib>
#include <cstring>
#include <vector>

using u8 = std::uint8_t;
using u32 = std::uint32_t;
using u64 = std::uint64_t;

static u64 word_at(const u8* p) { u64 w; std::memcpy(&w, p, 8); return w; }

static u64 mixed(u64 hash, u64 word) {
  unsigned __int128 product = (unsigned __int128)(hash ^ word) * 0xA0761D6478BD642Full;
  return (u64)product ^ (u64)(product >> 64);
}

// Slots of (high half of the hash, row + 1), or 0, tried one after the other.
struct Table {
  std::vector<u64> slots = std::vector<u64>(1024, 0);

  // The slot of the row of this hash that is the one looked for, or the empty slot where it would stand.
  template <class Is> std::size_t slot_of(u64 hash, Is is) const {
    const u64 tag = hash >> 32 << 32;
    const std::size_t mask = slots.size() - 1;
    for (std::size_t at = hash & mask;; at = (at + 1) & mask) {
      const u64 slot = slots[at];
      if (slot == 0) return at;
      if (slot >> 32 << 32 == tag && is((u32)slot - 1)) return at;
    }
  }

  template <class Is> bool find(u64 hash, Is is) const { return slots[slot_of(hash, is)] != 0; }

  template <class Is, class HashOf> void add(u64 hash, u32 row, Is is, HashOf hash_of) {
    slots[slot_of(hash, is)] = (hash >> 32 << 32) | (row + 1);
    if (2 * ((std::size_t)row + 1) > slots.size()) grow(row + 1, hash_of);
  }

  template <class HashOf> void grow(u32 count, HashOf hash_of) {
    slots.assign(slots.size() * 2, 0);
    const std::size_t mask = slots.size() - 1;
    for (u32 i = 0; i < count; i++) {
      const u64 hash = hash_of(i);
      std::size_t at = hash & mask;
      while (slots[at] != 0) at = (at + 1) & mask;
      slots[at] = (hash >> 32 << 32) | (i + 1);
    }
  }
};

struct Rows {
  std::size_t stride;
  u32 count = 0;
  std::vector<u8> cells;
  Table index;

  explicit Rows(std::size_t width) : stride((width + 7) / 8 * 8) {}

  const u8* row(u32 i) const { return cells.data() + i * stride; }

  u64 hash_of(const u8* v) const {
    u64 hash = 0x9E3779B97F4A7C15ull;
    for (std::size_t i = 0; i < stride; i += 8) hash = mixed(hash, word_at(v + i));
    return hash;
  }

  bool same(const u8* a, const u8* b) const {
    u64 bits = 0;
    for (std::size_t i = 0; i < stride; i += 8) bits |= word_at(a + i) ^ word_at(b + i);
    return bits == 0;
  }

  bool find(const u8* v) const {
    return index.find(hash_of(v), [&](u32 i) { return same(row(i), v); });
  }

  void add(const u8* v) {
    const u64 hash = hash_of(v);
    const auto is = [&](u32 i) { return same(row(i), v); };
    if (index.find(hash, is)) return;
    cells.insert(cells.end(), v, v + stride);
    index.add(hash, count++, is, [&](u32 i) { return hash_of(row(i)); });
  }
};

// Eight coordinates at a time, gathered in a register.
static void apply(const u8* table, std::size_t size, const u8* x, const u8* y, u8* out, std::size_t stride, u64 last) {
  for (std::size_t i = 0; i < stride; i += 8) {
    u64 word = 0;
    for (std::size_t k = 0; k < 8; k++) word |= (u64)table[x[i + k] * size + y[i + k]] << (8 * k);
    if (i + 8 == stride) word &= last;
    std::memcpy(out + i, &word, 8);
  }
}

static std::vector<u8> sums(u32 size) {
  std::vector<u8> table;
  for (u32 x = 0; x < size; x++)
    for (u32 y = 0; y < size; y++) table.push_back((u8)((x + y) % size));
  return table;
}

// What is left of the last word of a vector.
static u64 last_of(u32 width) {
  const u64 used = width % 8;
  return used == 0 ? ~0ull : (1ull << (8 * used)) - 1;
}

static u32 close(u32 size, u32 generators, u32 width) {
  const std::vector<u8> table = sums(size);
  Rows rows(width);
  std::vector<u8> out(rows.stride, 0);
  for (u32 j = 0; j < generators; j++) {
    for (u32 i = 0; i < width; i++) out[i] = i % generators == j;
    rows.add(out.data());
  }
  const u64 last = last_of(width);
  for (u32 a = 0; a < rows.count; a++)
    for (u32 b = 0; b <= a; b++) {
      apply(table.data(), size, rows.row(a), rows.row(b), out.data(), rows.stride, last);
      rows.add(out.data());
      apply(table.data(), size, rows.row(b), rows.row(a), out.data(), rows.stride, last);
      rows.add(out.data());
    }
  return rows.count;
}

static u32 fill(u32 count, u32 times) {
  Rows rows(8);
  for (u32 i = 0; i < count; i++) {
    const u64 v = (u64)i * 0x9E3779B9ull;
    rows.add((const u8*)&v);
  }
  u32 found = rows.count;
  for (u32 t = 0; t < times; t++) {
    found = 0;
    for (u32 i = 0; i < count; i++) {
      const u64 v = (u64)i * 0x9E3779B9ull;
      found += rows.find((const u8*)&v);
    }
  }
  return found;
}

static u32 apply_often(u32 size, u32 width, u32 times) {
  const std::vector<u8> table = sums(size);
  Rows rows(width);
  std::vector<u8> out(rows.stride, 0);
  for (u32 j = 0; j < 2; j++) {
    for (u32 i = 0; i < width; i++) out[i] = i % 2 == j;
    rows.add(out.data());
  }
  const u64 last = last_of(width);
  for (u32 i = 0; i < times; i++)
    apply(table.data(), size, rows.row(i % 2), rows.row(i / 2 % 2), out.data(), rows.stride, last);
  return out[0];
}

int main() {
  char task[16];
  u32 first = 0, second = 0, third = 0;
  if (std::scanf("%15s %u %u %u", task, &first, &second, &third) < 3) return 1;
  u32 answer = 0;
  if (std::strcmp(task, "close") == 0) answer = close(first, second, third);
  if (std::strcmp(task, "fill") == 0) answer = fill(first, second);
  if (std::strcmp(task, "apply") == 0) answer = apply_often(first, second, third);
  std::printf("%u\n", answer);
}
