// A plain C++ program that answers the same requests: what speed is measured beside, and a second opinion on answers.
//
// It reads well-formed requests of format 1, one a line, of all seven kinds. It is exact: operations over (Z + Z sqrt3)/2, tables
// over integers by an elimination without fractions, no floats. It trusts its input: a group symbol that it doesn't know is
// answered by `error LINE 0 syntax`, a group that isn't below the other by `notsub`; no other refusal is known to it.
// `tensors --generate N --seed S` prints the N request lines of the generator that the program's generated runs answer.
//
// Build: g++ -O2 -std=c++17 -o peer bench/peer/tensors.cpp
#include <algorithm>
#include <array>
#include <bitset>
#include <cmath>
#include <cstdint>
#include <cstdio>
#include <cstdlib>
#include <cstring>
#include <map>
#include <numeric>
#include <string>
#include <unordered_map>
#include <vector>
using namespace std;
typedef long long ll;
typedef __int128 LL;

// ---------- operations: a universe of 64 matrices x 2, numbered in the printed order ----------
struct E3 { int a, b; };  // (a + b sqrt3)/2
static double val(E3 e) { return (e.a + e.b * 1.7320508075688772) / 2; }
typedef array<E3, 9> Mat;
static Mat mul(const Mat &x, const Mat &y) {
  Mat r;
  for (int i = 0; i < 3; i++)
    for (int j = 0; j < 3; j++) {
      int a = 0, b = 0;
      for (int k = 0; k < 3; k++) {
        E3 p = x[3 * i + k], q = y[3 * k + j];
        a += p.a * q.a + 3 * p.b * q.b; b += p.a * q.b + p.b * q.a;
      }
      r[3 * i + j] = {a / 2, b / 2};
    }
  return r;
}
static bool same(const Mat &x, const Mat &y) {
  for (int i = 0; i < 9; i++) if (x[i].a != y[i].a || x[i].b != y[i].b) return false;
  return true;
}
static vector<Mat> M;             // 64 matrices, rising in the printed order
static short PROD[64][64], INV[64];
static int DET[64];
static bool PLAIN[64], HEX[64], DIAG[64];
typedef bitset<128> Grp;          // element id = 2 * matrix + primed
static int prod(int x, int y) { int m = PROD[x >> 1][y >> 1]; return m < 0 ? -1 : 2 * m + ((x ^ y) & 1); }
static int inv(int x) { return 2 * INV[x >> 1] + (x & 1); }
static Mat lit(initializer_list<int> v) { Mat m; int i = 0; for (int x : v) m[i++] = {2 * x, 0}; return m; }
static int idOf(const Mat &m) { for (size_t i = 0; i < M.size(); i++) if (same(M[i], m)) return i; return -1; }
static int IDENT, R3Z;
static void buildOps() {
  vector<Mat> all;
  int p[3] = {0, 1, 2};
  do for (int s = 0; s < 8; s++) {
      Mat m; for (auto &e : m) e = {0, 0};
      for (int i = 0; i < 3; i++) m[3 * i + p[i]] = {s >> i & 1 ? -2 : 2, 0};
      all.push_back(m);
    } while (next_permutation(p, p + 3));
  Mat six; for (auto &e : six) e = {0, 0};
  six[0] = {1, 0}; six[1] = {0, -1}; six[3] = {0, 1}; six[4] = {1, 0}; six[8] = {2, 0};
  Mat pw = lit({1, 0, 0, 0, 1, 0, 0, 0, 1});
  for (int k = 0; k < 6; k++, pw = mul(pw, six))
    for (int s = 0; s < 8; s++) {
      Mat d; for (auto &e : d) e = {0, 0};
      for (int i = 0; i < 3; i++) d[4 * i] = {s >> i & 1 ? -2 : 2, 0};
      all.push_back(mul(pw, d));
    }
  sort(all.begin(), all.end(), [](const Mat &x, const Mat &y) {
    for (int i = 0; i < 9; i++) { double u = val(x[i]), v = val(y[i]); if (fabs(u - v) > 1e-9) return u > v; }
    return false; });
  for (auto &m : all) if (M.empty() || !same(M.back(), m)) M.push_back(m);
  for (int i = 0; i < 64; i++) {
    PLAIN[i] = true; DIAG[i] = true;
    for (int k = 0; k < 9; k++) {
      if (abs(M[i][k].a) == 1 || M[i][k].b) PLAIN[i] = false;
      if (k % 4 && (M[i][k].a || M[i][k].b)) DIAG[i] = false;
    }
    HEX[i] = !PLAIN[i] || DIAG[i];
    double v[9]; for (int k = 0; k < 9; k++) v[k] = val(M[i][k]);
    DET[i] = lround(v[0] * (v[4] * v[8] - v[5] * v[7]) - v[1] * (v[3] * v[8] - v[5] * v[6]) + v[2] * (v[3] * v[7] - v[4] * v[6]));
  }
  for (int i = 0; i < 64; i++) for (int j = 0; j < 64; j++)
    PROD[i][j] = (PLAIN[i] && PLAIN[j]) || (HEX[i] && HEX[j]) ? idOf(mul(M[i], M[j])) : -1;
  IDENT = idOf(lit({1, 0, 0, 0, 1, 0, 0, 0, 1}));
  for (int i = 0; i < 64; i++) for (int j = 0; j < 64; j++) if (PROD[i][j] == IDENT) INV[i] = j;
  Mat t = mul(six, six); R3Z = idOf(t);
}
static Grp closure(vector<int> gens) {
  Grp g; vector<int> el = {2 * IDENT}; g[2 * IDENT] = 1;
  for (size_t i = 0; i < el.size(); i++) for (int x : gens) {
      int y = prod(el[i], x);
      if (!g[y]) { g[y] = 1; el.push_back(y); }
    }
  return g;
}
static vector<int> list(const Grp &g) { vector<int> v; for (int i = g._Find_first(); i < 128; i = g._Find_next(i)) v.push_back(i); return v; }

// ---------- group symbols ----------
static map<string, int> GEN;  // "Four Z" style: kind char + direction
static void buildGen() {
  auto add = [](const char *k, Mat m) { GEN[k] = idOf(m); };
  add("2X", lit({1,0,0,0,-1,0,0,0,-1})); add("2Y", lit({-1,0,0,0,1,0,0,0,-1})); add("2Z", lit({-1,0,0,0,-1,0,0,0,1}));
  add("2A", lit({0,1,0,1,0,0,0,0,-1})); add("2B", lit({0,-1,0,-1,0,0,0,0,-1}));
  add("mX", lit({-1,0,0,0,1,0,0,0,1})); add("mY", lit({1,0,0,0,-1,0,0,0,1})); add("mZ", lit({1,0,0,0,1,0,0,0,-1}));
  add("mA", lit({0,-1,0,-1,0,0,0,0,1})); add("mB", lit({0,1,0,1,0,0,0,0,1}));
  add("4Z", lit({0,-1,0,1,0,0,0,0,1})); add("-4Z", lit({0,1,0,-1,0,0,0,0,-1}));
  add("3C", lit({0,0,1,1,0,0,0,1,0})); add("-3C", lit({0,0,-1,-1,0,0,0,-1,0}));
  add("-1Z", lit({-1,0,0,0,-1,0,0,0,-1}));
  int bar = GEN["-1Z"], six = -1;
  for (int i = 0; i < 64; i++) if (DET[i] == 1 && M[i][0].a == 1 && M[i][3].b == 1 && M[i][8].a == 2) six = i;
  GEN["3Z"] = R3Z; GEN["-3Z"] = PROD[bar][R3Z]; GEN["6Z"] = six; GEN["-6Z"] = PROD[bar][six];
}
struct Parent { const char *text; const char *ops; };  // A [110], B [1-10], C [111]
static const Parent PARENTS[42] = {
  {"1",""},{"-1","-1Z"},{"2","2Y"},{"m","mY"},{"2/m","2Y mY"},{"222","2X 2Y 2Z"},{"mm2","mX mY 2Z"},{"m2m","mX 2Y mZ"},
  {"2mm","2X mY mZ"},{"mmm","mX mY mZ"},{"4","4Z"},{"-4","-4Z"},{"4/m","4Z mZ"},{"422","4Z 2X 2B"},{"4mm","4Z mX mB"},
  {"-42m","-4Z 2X mB"},{"-4m2","-4Z mX 2B"},{"4/mmm","4Z mZ mX mB"},{"3","3Z"},{"-3","-3Z"},{"32","3Z 2X"},{"321","3Z 2X"},
  {"312","3Z 2Y"},{"3m","3Z mX"},{"3m1","3Z mX"},{"31m","3Z mY"},{"-3m","-3Z mX"},{"-3m1","-3Z mX"},{"-31m","-3Z mY"},
  {"6","6Z"},{"-6","-6Z"},{"6/m","6Z mZ"},{"622","6Z 2X 2Y"},{"6mm","6Z mX mY"},{"-6m2","-6Z mX 2Y"},{"-62m","-6Z 2X mY"},
  {"6/mmm","6Z mZ mX mY"},{"23","2Z 3C"},{"m-3","mZ -3C"},{"432","4Z 3C 2B"},{"-43m","-4Z 3C mB"},{"m-3m","mZ -3C mB"}};
struct Sym { int parent, primes; bool grey; char setting; string text; Grp g; vector<int> gens; };
static vector<Sym> SYMS;                        // accepted symbols, in the order of look-up
static unordered_map<string, int> BYTEXT;
struct GH { size_t operator()(const Grp &g) const { return hash<Grp>()(g); } };
static unordered_map<Grp, int, GH> BYGRP;
static void buildSyms() {
  for (int p = 0; p < 42; p++) {
    vector<string> ops; string o = PARENTS[p].ops, w;
    for (char c : o + " ") if (c == ' ') { if (w.size()) ops.push_back(w); w = ""; } else w += c;
    string sets = "_"; if (p >= 2 && p <= 4) sets = "_xzA"; if (p >= 5 && p <= 9) sets = "_d";
    if (p == 18 || p == 19 || p == 20 || p == 23 || p == 26) sets = "_p";
    for (char st : sets) {
      vector<int> base;
      for (string q : ops) {
        char &d = q.back();
        if (st == 'x' && d == 'Y') d = 'X'; else if (st == 'z' && d == 'Y') d = 'Z'; else if (st == 'A' && d == 'Y') d = 'A';
        else if (st == 'd') d = d == 'X' ? 'A' : d == 'Y' ? 'B' : d;
        else if (st == 'p') d = d == 'Z' ? 'C' : d == 'X' ? 'B' : d;
        base.push_back(2 * GEN[q]);
      }
      int n = ops.size();
      for (int v = 0; v <= (1 << n); v++) {  // 0 plain, 1 grey, then patterns 1..2^n-1
        bool grey = v == 1; int pat = v < 2 ? 0 : v - 1;
        vector<int> gens = base; string t; int k = 0;
        for (int i = 0; i < n; i++) if (pat >> (n - 1 - i) & 1) gens[i] |= 1;
        if (grey) gens.push_back(2 * IDENT + 1);
        Grp g = closure(gens);
        if (!grey && g[2 * IDENT + 1]) continue;
        string src = PARENTS[p].text;
        for (size_t i = 0; i < src.size(); i++) {
          t += src[i];
          if (src[i] == '-' || src[i] == '/') continue;
          if (src[i] == '1' && (i == 0 || src[i - 1] != '-')) continue;
          if (pat >> (n - 1 - k) & 1) t += '\'';
          k++;
        }
        if (grey) t += "1'";
        if (st != '_') t += st == 'A' ? string("@xy") : string("@") + st;
        SYMS.push_back({p, pat, grey, st, t, g, gens});
        int id = SYMS.size() - 1;
        BYTEXT.emplace(t, id); BYGRP.emplace(g, id);
        if (st == '_' && p >= 2 && p <= 4) BYTEXT.emplace(t + "@y", id);
        if (p == 0 && grey) BYTEXT.emplace("1'", id);
      }
    }
  }
}

// ---------- Jahn symbols ----------
struct Jahn { bool e = false, a = false; int rank = 0; vector<pair<vector<int>, int>> swaps; string text; };
static void atom(const string &s, size_t &i, Jahn &j) {
  if (s[i] == 'V') { i++; j.rank++; return; }
  int sign = s[i] == '[' ? 1 : -1; i++;
  size_t start = i; int from = j.rank;
  atom(s, i, j); int size = j.rank - from, n = s[i++] - '0'; size_t after = i;
  for (int b = 1; b < n; b++) { size_t k = start; atom(s, k, j); }
  for (int b = 0; b + 1 < n; b++) {
    vector<int> p(8); iota(p.begin(), p.end(), 0);
    for (int q = 0; q < size; q++) swap(p[from + b * size + q], p[from + (b + 1) * size + q]);
    j.swaps.push_back({p, sign});
  }
  i = after + 1;
}
static Jahn readJahn(const string &s) {
  Jahn j; size_t i = 0;
  while (s[i] == 'e' || s[i] == 'a') { (s[i] == 'e' ? j.e : j.a) = true; i++; }
  j.text = string(j.a ? "a" : "") + (j.e ? "e" : "");
  if (i == s.size() || s[i] == '1') { if (j.text.empty()) j.text = "1"; return j; }
  j.text += s.substr(i);
  while (i < s.size()) {
    size_t start = i; atom(s, i, j);
    int n = 1; if (i < s.size() && isdigit(s[i])) n = s[i++] - '0';
    for (int b = 1; b < n; b++) { size_t k = start; atom(s, k, j); }
  }
  return j;
}

// ---------- forms ----------
struct Term { int free; ll num, den; };
struct Form { int rank, n; vector<int> free; vector<vector<Term>> rows; };
static int P3[7] = {1, 3, 9, 27, 81, 243, 729};
static void digits(int c, int r, int *d) { for (int i = r - 1; i >= 0; i--) { d[i] = c % 3; c /= 3; } }
static int signOf(int op, const Jahn &j) { return (j.e ? DET[op >> 1] : 1) * (j.a && (op & 1) ? -1 : 1); }
static ll gcdll(ll a, ll b) { while (b) { ll t = a % b; a = b; b = t; } return a < 0 ? -a : a; }

static vector<int> voigtKey(int r, const vector<int> &blocks) {  // position in the order of each component
  static const int pairNo[3][3] = {{1, 6, 5}, {6, 2, 4}, {5, 4, 3}};
  int n = P3[r]; vector<pair<ll, int>> k(n);
  for (int c = 0; c < n; c++) {
    int d[6], at = 0; digits(c, r, d); ll key = 0;
    for (int b : blocks) { key = key * 7 + (b == 1 ? d[at] + 1 : pairNo[d[at]][d[at + 1]]); at += b; }
    k[c] = {key, c};
  }
  sort(k.begin(), k.end());
  vector<int> pos(n); for (int i = 0; i < n; i++) pos[k[i].second] = i;
  return pos;
}
static Form solve(const Grp &g, const Jahn &j, const vector<int> *order = nullptr) {
  int r = j.rank, n = P3[r];
  vector<int> byPos(n); if (order) for (int c = 0; c < n; c++) byPos[(*order)[c]] = c; else iota(byPos.begin(), byPos.end(), 0);
  vector<int> el = list(g); bool hex = false;
  for (int x : el) if (!PLAIN[x >> 1]) hex = true;
  // signed permutations of components: index exchanges, and the plain (or, for hexagonal groups, the diagonal) elements
  struct SP { vector<short> to; vector<signed char> sg; };
  vector<SP> gens;
  for (auto &s : j.swaps) {
    SP q{vector<short>(n), vector<signed char>(n, (signed char)s.second)};
    for (int c = 0; c < n; c++) { int d[6], t = 0; digits(c, r, d); for (int i = 0; i < r; i++) t = 3 * t + d[s.first[i]]; q.to[c] = t; }
    gens.push_back(q);
  }
  Grp done; done[2 * IDENT] = 1; vector<int> used;  // a small generating set
  for (int x : el) if ((hex ? DIAG[x >> 1] : true) && !done[x]) { used.push_back(x); done = closure(used); }
  for (int x : used) {
    int im[3], sg[3];
    for (int i = 0; i < 3; i++) for (int k = 0; k < 3; k++) if (M[x >> 1][3 * i + k].a) { im[i] = k; sg[i] = M[x >> 1][3 * i + k].a / 2; }
    SP q{vector<short>(n), vector<signed char>(n)}; int s0 = signOf(x, j);
    for (int c = 0; c < n; c++) { int d[6], t = 0, s = s0; digits(c, r, d); for (int i = 0; i < r; i++) { t = 3 * t + im[d[i]]; s *= sg[d[i]]; } q.to[c] = t; q.sg[c] = s; }
    gens.push_back(q);
  }
  vector<int> rep(n, -1); vector<signed char> sg(n, 0); vector<int> unk;
  for (int p = 0; p < n; p++) {
    int c0 = byPos[p]; if (rep[c0] >= 0) continue;
    vector<int> st = {c0}; rep[c0] = c0; sg[c0] = 1; bool zero = false;
    for (size_t i = 0; i < st.size(); i++) for (auto &q : gens) {
        int c = st[i], t = q.to[c], s = sg[c] * q.sg[c];
        if (rep[t] < 0) { rep[t] = c0; sg[t] = s; st.push_back(t); } else if (sg[t] != s) zero = true;
      }
    if (zero) for (int c : st) sg[c] = 0; else unk.push_back(c0);
  }
  Form f{r, n, {}, vector<vector<Term>>(n)};
  int m = unk.size(); vector<int> at(n, -1); for (int i = 0; i < m; i++) at[unk[i]] = i;
  vector<vector<Term>> sum(m); vector<char> pivot(m, 0); vector<vector<pair<int, ll>>> kept; vector<int> pv;
  if (hex) {
    // rows of 3 * 2^k (P - 1), P = (1 + rho + rho^T)/3 the projector of the threefold axis; rational
    vector<ll> row(m), acc(m); vector<vector<pair<int, ll>>> rows;
    for (int u = 0; u < m; u++) {
      int d[6]; digits(unk[u], r, d); vector<int> xy; int base = 0;
      for (int i = 0; i < r; i++) { if (d[i] == 2) base += 2 * P3[r - 1 - i]; else xy.push_back(i); }
      int k = xy.size(); fill(row.begin(), row.end(), 0);
      for (int b = 0; b < 1 << k; b++) {
        int c = base, t = 0, s = 1;
        for (int i = 0; i < k; i++) { int y = b >> i & 1; c += y * P3[r - 1 - xy[i]]; if (y != d[xy[i]]) { t++; if (y) s = -s; } }
        if (t & 1 || !sg[c]) continue;
        ll v = 2 * s * ((k - t) & 1 ? -1 : 1); for (int i = 0; i < t / 2; i++) v *= 3;
        if (t == 0) v -= 2LL << k;
        row[at[rep[c]]] += v * sg[c];
      }
      vector<pair<int, ll>> sp; for (int i = 0; i < m; i++) if (row[i]) sp.push_back({i, row[i]});
      if (sp.size()) rows.push_back(sp);
    }
    auto primitive = [](vector<pair<int, ll>> &v) { ll q = 0; for (auto &x : v) q = gcdll(q, x.second); if (q > 1) for (auto &x : v) x.second /= q; };
    auto elim = [&](vector<pair<int, ll>> &v, const vector<pair<int, ll>> &k, int p) {  // clear v at p by row k
      ll f = 0, d = 0; for (auto &x : v) if (x.first == p) f = x.second; if (!f) return;
      for (auto &x : k) if (x.first == p) d = x.second;
      ll q = gcdll(f, d); f /= q; d /= q; vector<pair<int, ll>> o; size_t a = 0, b = 0;
      while (a < v.size() || b < k.size()) {
        int i = a == v.size() ? 1 << 30 : v[a].first, l = b == k.size() ? 1 << 30 : k[b].first, w = min(i, l);
        LL x = 0; if (i == w) x += (LL)v[a++].second * d; if (l == w) x -= (LL)k[b++].second * f;
        if (x > (LL)1 << 62 || -x > (LL)1 << 62) { fprintf(stderr, "grows\n"); exit(1); }
        if (x) o.push_back({w, (ll)x});
      }
      v.swap(o); primitive(v);
    };
    for (auto &v : rows) {
      primitive(v);
      for (size_t i = 0; i < kept.size(); i++) elim(v, kept[i], pv[i]);
      if (v.empty()) continue;
      int p = v.back().first;
      for (auto &k : kept) elim(k, v, p);
      kept.push_back(v); pv.push_back(p); pivot[p] = 1;
    }
  }
  vector<int> place(m, -1);
  for (int i = 0; i < m; i++) if (!pivot[i]) { place[i] = f.free.size(); f.free.push_back(unk[i]); sum[i] = {{place[i], 1, 1}}; }
  for (size_t q = 0; q < kept.size(); q++) {
    ll d = 0; for (auto &x : kept[q]) if (x.first == pv[q]) d = x.second;
    for (auto &x : kept[q]) if (x.first != pv[q]) {
        ll a = -x.second, b = d, h = gcdll(a, b); a /= h; b /= h; if (b < 0) { a = -a; b = -b; }
        sum[pv[q]].push_back({place[x.first], a, b});
      }
  }
  for (int c = 0; c < n; c++) if (sg[c]) { f.rows[c] = sum[at[rep[c]]]; for (auto &t : f.rows[c]) t.num *= sg[c]; }
  return f;
}

// ---------- texts ----------
static string out;
static void frac(ll a, ll b) { out += to_string(a); if (b != 1) { out += '/'; out += to_string(b); } }
static void comp(int c, int r) { int d[6]; digits(c, r, d); out += 'T'; for (int i = 0; i < r; i++) out += char('1' + d[i]); }
template <class N> static void sumText(const vector<Term> &s, N name) {
  if (s.empty()) { out += '0'; return; }
  bool first = true;
  for (auto &t : s) {
    if (!first && t.num > 0) out += '+';
    first = false;
    if (t.den == 1 && t.num == 1) {} else if (t.den == 1 && t.num == -1) out += '-'; else { frac(t.num, t.den); out += '*'; }
    name(t.free);
  }
}
static void opText(int op) {
  for (int i = 0; i < 9; i++) {
    E3 e = M[op >> 1][i]; if (i) out += ' ';
    if (e.b) out += e.b > 0 ? "1/2*r3" : "-1/2*r3"; else if (e.a % 2) out += e.a > 0 ? "1/2" : "-1/2"; else out += to_string(e.a / 2);
  }
  if (op & 1) out += " primed";
  out += '\n';
}
struct R3 { ll a, b, d; };  // (a + b sqrt3)/d
static R3 norm(R3 x) { ll q = gcdll(gcdll(x.a, x.b), x.d); if (q) { x.a /= q; x.b /= q; x.d /= q; } return x; }
static void r3Term(R3 x, bool first) {  // factor and '*'
  auto fr = [&](ll n, ll d) { ll q = gcdll(n, d); frac(n / q, d / q); };
  auto rt = [&](ll n, ll d) { if (n == d) out += "r3"; else if (n == -d) out += "-r3"; else { fr(n, d); out += "*r3"; } };
  bool both = x.a && x.b, neg = both ? false : x.b ? x.b < 0 : x.a < 0;
  if (!first && !neg) out += '+';
  if (both) { out += '('; fr(x.a, x.d); if (x.b > 0) out += '+'; rt(x.b, x.d); out += ")*"; }
  else if (x.b) { rt(x.b, x.d); out += '*'; }
  else if (x.a == x.d) {} else if (x.a == -x.d) out += '-'; else { fr(x.a, x.d); out += '*'; }
}

// ---------- states and pairs ----------
struct States { vector<int> reps, el; vector<signed char> of; };
static States states(const Grp &g, const Grp &f) {
  States s; s.of.assign(128, -1); s.el = list(f);
  for (int x : list(g)) if (s.of[x] < 0) { for (int y : s.el) s.of[prod(x, y)] = s.reps.size(); s.reps.push_back(x); }
  return s;
}
struct PairClass { vector<int> members; bool swap; Grp pg, tw; };
static vector<PairClass> pairs(const Grp &g, const Grp &f, const States &s) {
  vector<PairClass> r; vector<int> cls(s.reps.size(), -1); vector<int> fg = s.el;
  for (size_t k = 0; k < s.reps.size(); k++) if (cls[k] < 0) {
      PairClass c; int x = s.reps[k];
      for (int h : s.el) { int t = s.of[prod(h, x)]; if (cls[t] < 0) { cls[t] = r.size(); c.members.push_back(t); } }
      sort(c.members.begin(), c.members.end());
      c.swap = false;  // some y in xF with y x in F
      for (int h : s.el) { int y = prod(x, h); if (f[prod(y, x)]) { c.swap = true; break; } }
      int xi = inv(x);
      for (int h : s.el) if (f[prod(prod(xi, h), x)]) c.pg[h] = 1;
      vector<int> gens = fg; gens.push_back(x); c.tw = closure(gens);
      r.push_back(c);
    }
  return r;
}
static void name(const Grp &g) { auto it = BYGRP.find(g); out += it == BYGRP.end() ? "none" : SYMS[it->second].text; }

// ---------- requests ----------
static ll lines = 0;
static bool voigtBlocks(const string &j, vector<int> &b) {
  string s = j; size_t i = 0; while (i < s.size() && (s[i] == 'e' || s[i] == 'a')) i++; s = s.substr(i);
  if (s == "[V2]") b = {2}; else if (s == "V[V2]") b = {1, 2}; else if (s == "[V2]V") b = {2, 1};
  else if (s == "[V2][V2]" || s == "[V2]2" || s == "[[V2]2]") b = {2, 2}; else return false;
  return true;
}
static void answer(const string &line) {
  lines++;
  if (line.empty()) return;
  vector<string> w; { string t; for (char c : line + " ") if (c == ' ') { w.push_back(t); t = ""; } else t += c; }
  auto sym = [&](size_t i) -> const Sym * { auto it = i < w.size() ? BYTEXT.find(w[i]) : BYTEXT.end(); return it == BYTEXT.end() ? nullptr : &SYMS[it->second]; };
  auto bad = [&](const char *word, int col) { out += "error " + to_string(lines) + " " + to_string(col) + " " + word; };
  const Sym *g = sym(1);
  if (!g) { bad("syntax", 0); out += '\n'; return; }
  string head = w[0] + " " + g->text;
  auto sub = [&](const Sym *f) {
    Grp rest = f->g & ~g->g; if (rest.none()) return true;
    vector<int> el = list(f->g); int first = 0; while (g->g[el[first]]) first++;
    bad("notsub", w[0].size() + w[1].size() + 3); out += " " + to_string(first + 1) + "\n"; return false; };
  if (w[0] == "form") {
    Jahn j = readJahn(w[2]); Form f = solve(g->g, j);
    out += head + " " + j.text + " free " + to_string(f.free.size()) + " of " + to_string(f.n) + "\n";
    for (int c = 0; c < f.n; c++) {
      comp(c, f.rank);
      if (f.rows[c].size() == 1 && f.free[f.rows[c][0].free] == c) out += " free\n";
      else { out += " = "; sumText(f.rows[c], [&](int k) { comp(f.free[k], f.rank); }); out += '\n'; }
    }
  } else if (w[0] == "group") {
    vector<int> el = list(g->g); out += head + " order " + to_string(el.size()) + "\n";
    for (size_t i = 0; i < el.size(); i++) { out += "element " + to_string(i + 1) + " "; opText(el[i]); }
  } else if (w[0] == "voigt") {
    Jahn j = readJahn(w[2]); vector<int> b;
    if (!voigtBlocks(w[2], b)) { bad("shape", w[0].size() + w[1].size() + 3); out += '\n'; return; }
    vector<int> pos = voigtKey(j.rank, b); Form f = solve(g->g, j, &pos);
    static const int P[7][2] = {{0, 0}, {0, 0}, {1, 1}, {2, 2}, {1, 2}, {0, 2}, {0, 1}};
    vector<array<int, 2>> es; vector<int> cs, ws;
    int m = b.size();
    for (int x = 1; x <= (b[0] == 1 ? 3 : 6); x++) for (int y = 1; y <= (m == 1 ? 1 : b[1] == 1 ? 3 : 6); y++) {
        int c = 0, wt = 1;
        for (int q = 0; q < m; q++) { int v = q ? y : x; if (b[q] == 1) c = 3 * c + v - 1; else { c = 9 * c + 3 * P[v][0] + P[v][1]; if (v > 3) wt *= 2; } }
        es.push_back({x, y}); cs.push_back(c); ws.push_back(w[3] == "s" ? wt : 1);
      }
    auto nm = [&](int e) { out += w[3]; out += char('0' + es[e][0]); if (m == 2) out += char('0' + es[e][1]); };
    vector<int> entryOf(f.n, -1); for (size_t e = 0; e < cs.size(); e++) entryOf[cs[e]] = e;
    out += head + " " + j.text + " " + w[3] + " free " + to_string(f.free.size()) + "\n";
    for (size_t e = 0; e < cs.size(); e++) {
      nm(e); vector<Term> s = f.rows[cs[e]];
      if (s.size() == 1 && f.free[s[0].free] == cs[e]) { out += " free\n"; continue; }
      for (auto &t : s) { ll a = t.num * ws[e], d = t.den * ws[entryOf[f.free[t.free]]], q = gcdll(a, d); t.num = a / q; t.den = d / q; }
      out += " = "; sumText(s, [&](int k) { nm(entryOf[f.free[k]]); }); out += '\n';
    }
  } else if (w[0] == "states" || w[0] == "pairs" || w[0] == "differ") {
    const Sym *h = sym(2); if (!sub(h)) return;
    States s = states(g->g, h->g); head += " " + h->text;
    if (w[0] == "states") {
      out += head + " count " + to_string(s.reps.size()) + "\n";
      for (size_t k = 0; k < s.reps.size(); k++) { out += "state " + to_string(k + 1) + " "; opText(s.reps[k]); }
    } else if (w[0] == "pairs") {
      auto pc = pairs(g->g, h->g, s);
      out += head + " states " + to_string(s.reps.size()) + " classes " + to_string(pc.size()) + "\n";
      for (size_t k = 0; k < pc.size(); k++) {
        out += "class " + to_string(k + 1) + " states"; for (int x : pc[k].members) out += " " + to_string(x + 1);
        out += pc[k].swap ? " swappable yes group " : " swappable no group "; name(pc[k].pg); out += " order " + to_string(pc[k].pg.count()) + " twin ";
        name(pc[k].tw); out += " order " + to_string(pc[k].tw.count()) + "\n";
      }
    } else {
      Jahn j = readJahn(w[3]); Form f = solve(h->g, j); int r = j.rank, nf = f.free.size();
      out += head + " " + j.text + " states " + to_string(s.reps.size()) + " free";
      for (int c : f.free) { out += ' '; comp(c, r); } if (!nf) out += " none"; out += '\n';
      vector<R3> acc(nf);
      for (size_t k = 1; k < s.reps.size(); k++) {
        int op = s.reps[k], s0 = signOf(op, j), marks = 0; string save; save.swap(out);
        for (int c = 0; c < f.n; c++) {
          for (auto &x : acc) x = {0, 0, 1};
          int d[6]; digits(c, r, d);
          // walk the components j with a coefficient other than 0
          struct Fr { int pos, to; ll a, b; }; vector<Fr> st = {{0, 0, s0, 0}};
          while (st.size()) {
            Fr x = st.back(); st.pop_back();
            if (x.pos == r) {
              ll D = 1LL << r;
              for (auto &t : f.rows[x.to]) { R3 &q = acc[t.free]; ll na = x.a * t.num, nb = x.b * t.num, nd = D * t.den;
                q = norm({q.a * nd + na * q.d, q.b * nd + nb * q.d, q.d * nd}); }
              continue;
            }
            for (int i = 0; i < 3; i++) { E3 e = M[op >> 1][3 * d[x.pos] + i]; if (e.a || e.b)
              st.push_back({x.pos + 1, 3 * x.to + i, x.a * e.a + 3 * x.b * e.b, x.a * e.b + x.b * e.a}); }
          }
          bool diff = false; size_t q = 0;
          for (int i = 0; i < nf; i++) {
            ll a = 0, b = 1; if (q < f.rows[c].size() && f.rows[c][q].free == i) { a = f.rows[c][q].num; b = f.rows[c][q].den; q++; }
            if (acc[i].b || acc[i].a * b != a * acc[i].d) diff = true;
          }
          if (!diff) continue;
          marks++; comp(c, r); out += " = "; bool first = true;
          for (int i = 0; i < nf; i++) if (acc[i].a || acc[i].b) { r3Term(acc[i], first); comp(f.free[i], r); first = false; }
          if (first) out += '0'; out += '\n';
        }
        save += "state " + to_string(k + 1) + " differs " + to_string(marks) + " of " + to_string(f.n) + "\n"; save += out; out.swap(save);
      }
    }
  } else if (w[0] == "same") {
    const Sym *h = sym(2); Jahn j = readJahn(w[3]); Form x = solve(g->g, j), y = solve(h->g, j);
    bool eq = x.free == y.free;
    for (int c = 0; eq && c < x.n; c++) { eq = x.rows[c].size() == y.rows[c].size();
      for (size_t i = 0; eq && i < x.rows[c].size(); i++) { auto &p = x.rows[c][i], &q = y.rows[c][i]; eq = p.free == q.free && p.num == q.num && p.den == q.den; } }
    out += head + " " + h->text + " " + j.text + (eq ? " yes\n" : " no\n");
  }
}

static const char *ROWS122 = "1 11' -1 -11' -1' 2 21' 2' m m1' m' 2/m 2/m1' 2'/m 2/m' 2'/m' 222 2221' 2'2'2 mm2 mm21' m'm2' m'm'2 mmm mmm1' m'mm m'm'm m'm'm' 4 41' 4' -4 -41' -4' 4/m 4/m1' 4'/m 4/m' 4'/m' 422 4221' 4'22' 42'2' 4mm 4mm1' 4'mm' 4m'm' -42m -42m1' -4'2'm -4'2m' -42'm' 4/mmm 4/mmm1' 4/m'mm 4'/mmm' 4'/m'mm' 4/mm'm' 4/m'm'm' 3 31' -3 -31' -3' 32 321' 32' 3m 3m1' 3m' -3m -3m1' -3'm -3'm' -3m' 6 61' 6' -6 -61' -6' 6/m 6/m1' 6'/m 6/m' 6'/m' 622 6221' 6'22' 62'2' 6mm 6mm1' 6'mm' 6m'm' -6m2 -6m21' -6'm'2 -6'm2' -6m'2' 6/mmm 6/mmm1' 6/m'mm 6'/mmm' 6'/m'mm' 6/mm'm' 6/m'm'm' 23 231' m-3 m-31' m'-3' 432 4321' 4'32' -43m -43m1' -4'3m' m-3m m-3m1' m'-3'm m-3m' m'-3'm'";
static vector<string> rows122() { vector<string> v; string w; for (const char *p = ROWS122;; p++) { if (*p == ' ' || !*p) { v.push_back(w); w = ""; if (!*p) break; } else w += *p; } return v; }
int main(int argc, char **argv) {
  if (argc == 5) {
    static const char *J[8] = {"V","[V2]","aeV","aeV2","V[V2]","{V2}","[[V2]2]","e[V2]"};
    static const char *K[7] = {"form","group","voigt","states","pairs","differ","same"};
    ll n = atoll(argv[2]), x = atoll(argv[4]); auto rows = rows122();
    auto draw = [&](int b) { x = 16807 * x % 2147483647; return (int)(x % b); };
    for (ll i = 0; i < n; i++) {
      int k = draw(7); string s = K[k]; s += " " + rows[draw(122)];
      if (k == 0 || k == 2) s += string(" ") + J[draw(8)];
      if (k == 2) s += draw(2) ? " s" : " c";
      if (k >= 3) s += " " + rows[draw(122)];
      if (k >= 5) s += string(" ") + J[draw(8)];
      puts(s.c_str());
    }
    return 0;
  }
  buildOps(); buildGen(); buildSyms();
  static char buf[1 << 16]; string line; size_t n;
  while ((n = fread(buf, 1, sizeof buf, stdin)) > 0) {
    for (size_t i = 0; i < n; i++) if (buf[i] == '\n') { answer(line); line.clear(); } else line += buf[i];
    if (out.size() > 1 << 16) { fwrite(out.data(), 1, out.size(), stdout); out.clear(); }
  }
  if (line.size()) answer(line);
  fwrite(out.data(), 1, out.size(), stdout);
}
