# The numbers of free components of tensors, as multiplicities of the trivial character in characters of GAP.
#
# command: gap -q -A evidence/counts.g </dev/null >evidence/counts.txt
#
# A line: the number of the group as in groups.txt, the marks (- for none), and for each symbol of the first line its count.
SizeScreen([4096, 24]);;
Read("evidence/read_groups.g");
SYMBOLS := ["V", "V2", "[V2]", "{V2}", "V[V2]", "[V3]", "{V3}", "[[V2]2]", "[V2]2", "V2[V2]", "V[V3]", "{[V2]2}V", "[[V2]3]", "V6"];;
symmetric := {tbl, chi, n} -> SymmetricParts(tbl, [chi], n)[1];
curly := {tbl, chi, n} -> AntiSymmetricParts(tbl, [chi], n)[1];
Print("uni\tmarks\t", JoinStringsWithSeparator(SYMBOLS, "\t"), "\n");
hom := fail;; mark := fail;; one := fail;;
for it in GROUPS do
    G := group_of(it.matrices);
    hom := IsomorphismPermGroup(G);
    tbl := CharacterTable(Image(hom));
    matrices := List(ConjugacyClasses(tbl), c -> PreImagesRepresentative(hom, Representative(c)));
    V := ClassFunction(tbl, List(matrices, m -> m[1][1] + m[2][2] + m[3][3]));
    e := ClassFunction(tbl, List(matrices, m -> DeterminantMat(m) * m[4][4]));
    a := ClassFunction(tbl, List(matrices, m -> m[4][4]));
    pair := symmetric(tbl, V, 2);
    tensors := [V, V^2, pair, curly(tbl, V, 2), V * pair, symmetric(tbl, V, 3), curly(tbl, V, 3), symmetric(tbl, pair, 2), pair^2,
        V^2 * pair, V * symmetric(tbl, V, 3), curly(tbl, pair, 2) * V, symmetric(tbl, pair, 3), V^6];
    one := V^0;
    for mark in [["-", one], ["e", e], ["a", a], ["ae", a * e]] do
        Print(it.uni, "\t", mark[1], "\t", JoinStringsWithSeparator(List(tensors, t -> ScalarProduct(t * mark[2], one)), "\t"), "\n");
    od;
od;
QUIT;
