# Domain states and classes of pairs, as cosets and double cosets of GAP.
#
# command: gap -q -A evidence/pairs.g </dev/null >evidence/pairs.txt
#
# A line: the numbers of the two groups as in groups.txt, how many states, and for each double coset FgF, in rising order: how many
# states, + where it holds the inverses of its elements (- else), the order of the meet of F and gFg^-1, and that of the group of F and g.
SizeScreen([4096, 24]);;
Read("evidence/read_groups.g");
sizes := function(G, F)
    local found, c, g, meet, twin;
    found := [];
    for c in DoubleCosets(G, F, F) do
        g := Representative(c);
        meet := Intersection(F, F ^ (g^-1));
        twin := ClosureGroup(F, g);
        Add(found, [Size(c) / Size(F), g^-1 in c, Size(meet), Size(twin)]);
    od;
    Sort(found);
    return found;
end;
count := 0;;
for whole in GROUPS do
    G := group_of(whole.matrices);
    hom := IsomorphismPermGroup(G);
    for part in GROUPS do
        if Length(part.matrices) < Length(whole.matrices) and IsSubset(whole.matrices, part.matrices) then
            count := count + 1;
            # one in four, and none of more than 24 states
            if count mod 4 = 0 and Length(whole.matrices) <= 24 * Length(part.matrices) then
                F := Image(hom, group_of(part.matrices));
                Print(whole.uni, "\t", part.uni, "\t", Size(G) / Size(F));
                for it in sizes(Image(hom), F) do
                    Print("\t", it[1]);
                    if it[2] then Print("+"); else Print("-"); fi;
                    Print(" ", it[3], " ", it[4]);
                od;
                Print("\n");
            fi;
        fi;
    od;
od;
QUIT;
