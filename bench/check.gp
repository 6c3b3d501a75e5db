\\ The laws of a category that take the time of its check: both inverses of F, the pentagon and both hexagons, by PARI's
\\ residues modulo a cyclotomic polynomial. Reads category_list.gp, which `category_list.py` writes.
default(parisizemax, 4000000000);
read("category_list.gp");
conj_of(u) = if(u == 0, 0, subst(lift(u), x, z^-1) + 0*z);
has(a, b, c) = setsearch(to[a][b], c) > 0;
H = vector(count^6); S = vector(count^3);
equations = 0; fails = 0;
derive() = {
  for(a = 1, count, for(b = 1, count, foreach(to[a][b], e,
    S[at3(a,b,e)] = conj_of(R[at3(b,a,e)]) * w[at3(a,b,e)] * v[at3(b,a,e)];
    for(c = 1, count, foreach(to[e][c], d, foreach(to[b][c], f,
      if(has(a, f, d), H[at6(a,b,c,d,f,e)] = conj_of(F[at6(a,b,c,d,e,f)]) * w[at3(b,c,f)] * w[at3(a,f,d)] * v[at3(a,b,e)] * v[at3(e,c,d)])))))));
}
inverse() = {
  my(es, fs, sum);
  for(a = 1, count, for(b = 1, count, for(c = 1, count, for(d = 1, count,
    es = select(e -> has(e, c, d), to[a][b]); fs = select(f -> has(a, f, d), to[b][c]);
    foreach(es, e, foreach(es, g, sum = 0; foreach(fs, f, sum += F[at6(a,b,c,d,e,f)] * H[at6(a,b,c,d,f,g)]); if(sum != (e == g), fails++)));
    foreach(fs, f, foreach(fs, g, sum = 0; foreach(es, e, sum += H[at6(a,b,c,d,f,e)] * F[at6(a,b,c,d,e,g)]); if(sum != (f == g), fails++)))))));
}
pentagon() = {
  my(es, left, right, sum);
  for(p = 1, count, for(l = 1, count, for(m = 1, count, for(r = 1, count, foreach(to[p][l], x, foreach(to[x][m], y,
    es = select(e -> has(p, e, y), to[l][m]);
    foreach(to[y][r], z, foreach(to[m][r], f,
      left = F[at6(x,m,r,z,y,f)];
      foreach(to[l][f], q, if(has(p, q, z),
        equations++;
        sum = 0;
        foreach(es, e, if(has(e, r, q), sum += F[at6(p,l,m,y,x,e)] * F[at6(p,e,r,z,y,q)] * F[at6(l,m,r,q,e,f)]));
        right = if(has(x, f, z), left * F[at6(p,l,f,z,x,q)], 0);
        if(right != sum, fails++)))))))))));
}
hexagon(R) = {
  my(sum);
  for(a = 1, count, for(b = 1, count, for(c = 1, count, foreach(to[a][b], e, foreach(to[e][c], d, foreach(to[c][a], f, if(has(b, f, d),
    sum = 0;
    foreach(to[b][c], g, if(has(a, g, d), sum += F[at6(a,b,c,d,e,g)] * R[at3(a,g,d)] * F[at6(b,c,a,d,g,f)]));
    if(R[at3(a,b,e)] * F[at6(b,a,c,d,e,f)] * R[at3(a,c,f)] != sum, fails++))))))));
}
derive();
inverse();
pentagon();
hexagon(R);
hexagon(S);
print(equations, " pentagon equations, ", fails, " laws fail");
quit;
