# Reads evidence/groups.txt: a list of records with the number and the group of 4 x 4 matrices, the time mark as a sign at the end.
VALUES := rec();
ENTRIES := [["1", 1], ["1/2*r3", Sqrt(3)/2], ["1/2", 1/2], ["0", 0], ["-1/2", -1/2], ["-1/2*r3", -Sqrt(3)/2], ["-1", -1]];
entry := word -> First(ENTRIES, pair -> pair[1] = word)[2];
operation := function(text)
    local words, matrix, i, j;
    words := SplitString(text, " ");
    matrix := NullMat(4, 4);
    for i in [1..3] do for j in [1..3] do matrix[i][j] := entry(words[3*i-3+j]); od; od;
    matrix[4][4] := (-1)^(Length(words) - 9);
    return matrix;
end;
read := function(line)
    local parts, matrices, group;
    parts := SplitString(line, "\t");
    matrices := List(SplitString(ReplacedString(parts[4], "; ", ";"), ";"), operation);
    return rec(uni := parts[1], matrices := Set(matrices));
end;
GROUPS := List(SplitString(StringFile("evidence/groups.txt"), "\n"), read);;
# generators enough for the group of these matrices
group_of := function(matrices)
    local G, m;
    G := Group(IdentityMat(4));
    for m in matrices do if not m in G then G := ClosureGroup(G, m); fi; od;
    return G;
end;
