# The laws of a category that take the time of its check: both inverses of F, the pentagon and both hexagons, by GAP's
# cyclotomic numbers. Reads category_list.g (z, count, to, F, R, w, v), which `category_list.py` writes.
Read("category_list.g");
labels := [1 .. count];;
H := List(labels, a -> List(labels, b -> List(labels, c -> List(labels, d -> List(labels, f -> List(labels, e -> 0))))));;
S := List(labels, a -> List(labels, b -> List(labels, c -> 0)));;
equations := 0;;
fails := 0;;
derive := function()
  local a, b, c, d, e, f;
  for a in labels do for b in labels do for e in to[a][b] do
    S[a][b][e] := ComplexConjugate(R[b][a][e]) * w[a][b][e] * v[b][a][e];
    for c in labels do for d in to[e][c] do for f in to[b][c] do
      if d in to[a][f] then
        H[a][b][c][d][f][e] := ComplexConjugate(F[a][b][c][d][e][f]) * w[b][c][f] * w[a][f][d] * v[a][b][e] * v[e][c][d];
      fi;
    od; od; od;
  od; od; od;
end;;
inverse := function()
  local a, b, c, d, es, fs, left, right, e, g, f;
  for a in labels do for b in labels do for c in labels do for d in labels do
    es := Filtered(to[a][b], e -> d in to[e][c]);
    fs := Filtered(to[b][c], f -> d in to[a][f]);
    left := F[a][b][c][d]; right := H[a][b][c][d];
    for e in es do for g in es do
      if Sum(fs, f -> left[e][f] * right[f][g]) <> (function() if e = g then return 1; else return 0; fi; end)() then fails := fails + 1; fi;
    od; od;
    for e in fs do for g in fs do
      if Sum(es, f -> right[e][f] * left[f][g]) <> (function() if e = g then return 1; else return 0; fi; end)() then fails := fails + 1; fi;
    od; od;
  od; od; od; od;
end;;
pentagon := function()
  local p, l, m, r, x, y, z, f, q, es, e, left, right, bottom, row, sum;
  for p in labels do for l in labels do for m in labels do for r in labels do for x in to[p][l] do for y in to[x][m] do
    row := F[p][l][m][y][x];
    es := Filtered(to[l][m], e -> y in to[p][e]);
    for z in to[y][r] do for f in to[m][r] do
      left := F[x][m][r][z][y][f];
      for q in to[l][f] do
        if z in to[p][q] then
          equations := equations + 1;
          bottom := F[l][m][r][q];
          sum := 0;
          for e in es do
            if q in to[e][r] then sum := sum + row[e] * F[p][e][r][z][y][q] * bottom[e][f]; fi;
          od;
          if z in to[x][f] then right := left * F[p][l][f][z][x][q]; else right := 0; fi;
          if right <> sum then fails := fails + 1; fi;
        fi;
      od;
    od; od;
  od; od; od; od; od; od;
end;;
hexagon := function(R)
  local a, b, c, d, e, f, g, sum;
  for a in labels do for b in labels do for c in labels do for e in to[a][b] do for d in to[e][c] do for f in to[c][a] do
    if d in to[b][f] then
      sum := 0;
      for g in to[b][c] do
        if d in to[a][g] then sum := sum + F[a][b][c][d][e][g] * R[a][g][d] * F[b][c][a][d][g][f]; fi;
      od;
      if R[a][b][e] * F[b][a][c][d][e][f] * R[a][c][f] <> sum then fails := fails + 1; fi;
    fi;
  od; od; od; od; od; od;
end;;
derive();
inverse();
pentagon();
hexagon(R);
hexagon(S);
Print(equations, " pentagon equations, ", fails, " laws fail\n");
QUIT;
