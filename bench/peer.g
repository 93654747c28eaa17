# The same lines as cap_bench, done by GAP: a list of [operation, prime, size, rank] stands in the variable lines.
for line in lines do
  f := GF(line[2]);
  m := RandomMat(line[3], line[3], f);
  if line[4] < line[3] then
    m := RandomMat(line[3], line[4], f) * RandomMat(line[4], line[3], f);
  fi;
  m := ImmutableMatrix(f, m);
  start := NanosecondsSinceEpoch();
  if line[1] = "rref" then x := TriangulizedMat(m);
  elif line[1] = "null_rows" then x := TriangulizedNullspaceMat(m);
  elif line[1] = "product" then x := m * m;
  else x := SolutionMat(m, m[line[3]]);
  fi;
  Print(line[1], " ", line[2], " ", line[3], " ", line[4], " ", QuoInt(NanosecondsSinceEpoch() - start, 1000), " 0\n");
od;
QUIT;
