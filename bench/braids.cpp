// The same as braids.g in plain C++: four coefficients of 128 bits, no test whether a number fits.
// Reads strands, the count of braids, and a gap and a sign for each.
#include <array>
#include <cstdio>
#include <vector>
using Int = __int128;
using Number = std::array<Int, 4>;
static Number product(const Number &x, const Number &y) {
  Int c[7] = {};
  for (int i = 0; i < 4; i++)
    for (int j = 0; j < 4; j++) c[i + j] += x[i] * y[j];
  // z^5 = 1 and z^4 = -1 - z - z^2 - z^3
  Number out;
  Int fourth = c[4];
  for (int i = 0; i < 4; i++) out[i] = c[i] - fourth;
  for (int i = 5; i < 7; i++) out[i - 5] += c[i];
  return out;
}
static Number sum(const Number &x, const Number &y) {
  return {x[0] + y[0], x[1] + y[1], x[2] + y[2], x[3] + y[3]};
}
static Number conjugate(const Number &x) {
  // z^k goes to z^(5-k): z^4 = -1 - z - z^2 - z^3
  return {x[0] - x[1], -x[1], x[3] - x[1], x[2] - x[1]};
}
static Number power(const Number &x, int n) {
  Number out = {1, 0, 0, 0};
  while (n-- > 0) out = product(out, x);
  return out;
}
static bool none(const Number &x) { return !x[0] && !x[1] && !x[2] && !x[3]; }
int main() {
  int strands, count;
  if (scanf("%d %d", &strands, &count) != 2) return 1;
  Number brief = {-1, 0, -1, -1}, one = {1, 0, 0, 0}, minus = {1, 0, 1, 1};
  Number f[2][2] = {{brief, brief}, {one, minus}};
  Number r[2] = {{0, 0, 0, 1}, {1, 1, 1, 1}};
  std::vector<int> list, place(1 << (strands + 1), -1);
  for (int n = 0; n < 1 << (strands + 1); n++) {
    bool fits = !(n & 1) && (n & 2);
    for (int k = 2; k <= strands; k++) fits = fits && ((n >> k & 1) || (n >> (k - 1) & 1));
    if (fits) { place[n] = list.size(); list.push_back(n); }
  }
  std::vector<Number> v(list.size(), Number{}), next;
  int start = 0;
  for (int k = 0; k <= strands; k++) start |= (k % 2) << k;
  v[place[start]] = one;
  for (int c = 0; c < count; c++) {
    int gap, sign;
    if (scanf("%d %d", &gap, &sign) != 2) return 1;
    // the inverse of r is its ninth power, since r has the order ten at most
    Number t[2] = {sign > 0 ? r[0] : power(r[0], 9), sign > 0 ? r[1] : power(r[1], 9)};
    Number b[2][2];
    for (int i = 0; i < 2; i++)
      for (int j = 0; j < 2; j++)
        b[i][j] = sum(product(product(f[i][0], t[0]), f[0][j]), product(product(f[i][1], t[1]), f[1][j]));
    next.assign(list.size(), Number{});
    for (size_t i = 0; i < list.size(); i++) {
      if (none(v[i])) continue;
      int n = list[i], p = n >> (gap - 1) & 1, a = n >> gap & 1, y = n >> (gap + 1) & 1;
      if (p && y) {
        next[i] = sum(next[i], product(v[i], b[a][a]));
        int j = place[n ^ (1 << gap)];
        next[j] = sum(next[j], product(v[i], b[a][1 - a]));
      } else {
        next[i] = sum(next[i], product(v[i], p ? t[1] : t[y]));
      }
    }
    v.swap(next);
  }
  Number total = {};
  for (size_t i = 0; i < list.size(); i++) {
    if (none(v[i])) continue;
    Number w = one;
    for (int k = 1; k <= strands; k++)
      if ((list[i] >> (k - 1) & 1) && !(list[i] >> k & 1)) w = product(w, brief);
    total = sum(total, product(w, product(v[i], conjugate(v[i]))));
  }
  printf("total %lld,%lld,%lld,%lld\n", (long long)total[0], (long long)total[1], (long long)total[2], (long long)total[3]);
}
