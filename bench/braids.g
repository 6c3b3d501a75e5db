# Braids on Fibonacci strands as sparse matrices over the fifth roots of unity, on all left-combed paths: the total weight
# after them. Reads braid_list.g (strands, braids).
Read("braid_list.g");
z := E(5);;
short := -1 - z^2 - z^3;;                   # the inverse of the golden ratio
f := [[short, short], [1, -short]];;        # F(t,t,t,t), which is its own inverse
r := [z^3, -z^4];;                          # R(t,t,1), R(t,t,t)
paths := [[0, 1]];;                         # 0 is the unit, 1 is t
for k in [2 .. strands] do
  next := [];
  for x in paths do
    if x[Length(x)] = 0 then Add(next, Concatenation(x, [1])); else Add(next, Concatenation(x, [0])); Add(next, Concatenation(x, [1])); fi;
  od;
  paths := next;
od;
Sort(paths);
# the matrix of the braid at a gap, by the rows that aren't zero: for each path the paths that it leads to
rows := function(gap, sign)
  local turned, block, made, i, x, y, other, list;
  turned := List(r, v -> v^sign);
  block := f * DiagonalMat(turned) * f;
  made := [];
  for i in [1 .. Length(paths)] do
    x := paths[i];
    if x[gap] = 1 and x[gap + 2] = 1 then
      list := [[i, block[x[gap + 1] + 1][x[gap + 1] + 1]]];
      other := ShallowCopy(x);
      other[gap + 1] := 1 - x[gap + 1];
      Add(list, [PositionSorted(paths, other), block[x[gap + 1] + 1][2 - x[gap + 1]]]);
      Add(made, list);
    elif x[gap] = 1 then Add(made, [[i, turned[2]]]);
    else Add(made, [[i, turned[x[gap + 2] + 1]]]);
    fi;
  od;
  return made;
end;;
start := List([0 .. strands], k -> k mod 2);;
vector := List(paths, x -> 0);;
vector[PositionSorted(paths, start)] := 1;;
kept := rec();;
for b in braids do
  name := Concatenation(String(b[1]), "s", String(b[2]));
  if not IsBound(kept.(name)) then kept.(name) := rows(b[1], b[2]); fi;
  new := List(paths, x -> 0);
  for i in [1 .. Length(paths)] do
    if vector[i] <> 0 then
      for e in kept.(name)[i] do new[e[1]] := new[e[1]] + vector[i] * e[2]; od;
    fi;
  od;
  vector := new;
od;
# the weight of a path: the inverse of the golden ratio for each two strands that fuse to the unit
weigh := function(x)
  local k, w;
  w := 1;
  for k in [1 .. strands] do if x[k] = 1 and x[k + 1] = 0 then w := w * short; fi; od;
  return w;
end;;
total := 0;;
for i in [1 .. Length(paths)] do
  if vector[i] <> 0 then total := total + weigh(paths[i]) * vector[i] * ComplexConjugate(vector[i]); fi;
od;
Print("total ", total, "\n");
QUIT;
