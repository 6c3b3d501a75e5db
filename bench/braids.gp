\\ The same as braids.g in PARI: numbers are polynomials modulo the fifth cyclotomic polynomial.
read("braid_list.gp");
z = Mod(x, polcyclo(5));
short = -1 - z^2 - z^3;
f = [short, short; 1, -short];
r = [z^3, -z^4];
\\ paths by number: label k is bit k, the unit 0 and t 1; no two zeros stand beside each other, and the first two are 0 and 1
number(v) = sum(k = 0, strands, v[k + 1] * 2^k);
{allowed(n) = my(last = 1); if(bittest(n, 0) || !bittest(n, 1), return(0));
  for(k = 2, strands, my(b = bittest(n, k)); if(!b && !last, return(0)); last = b); 1};
list = select(allowed, [0 .. 2^(strands + 1) - 1]);
place = vector(2^(strands + 1)); for(i = 1, #list, place[list[i] + 1] = i);
vec = vector(#list); vec[place[number(vector(strands + 1, k, (k - 1) % 2)) + 1]] = Mod(1, polcyclo(5));
{acted(gap, sign, v) = my(new = vector(#list), t = [r[1]^sign, r[2]^sign], b = f * matdiagonal(t) * f);
  for(i = 1, #list, if(v[i] != 0,
    my(n = list[i], p = bittest(n, gap - 1), a = bittest(n, gap), y = bittest(n, gap + 1));
    if(p && y, new[i] += v[i] * b[a + 1, a + 1]; my(j = place[bitxor(n, 2^gap) + 1]); new[j] += v[i] * b[a + 1, 2 - a],
      if(p, new[i] += v[i] * t[2], new[i] += v[i] * t[y + 1]))));
  new};
for(i = 1, #braids, vec = acted(braids[i][1], braids[i][2], vec));
conj5(a) = subst(lift(a), x, z^4);
{weigh(n) = my(w = Mod(1, polcyclo(5))); for(k = 1, strands, if(bittest(n, k - 1) && !bittest(n, k), w *= short)); w};
total = sum(i = 1, #list, if(vec[i] == 0, 0, weigh(list[i]) * vec[i] * conj5(vec[i])));
print("total ", lift(total));
quit
