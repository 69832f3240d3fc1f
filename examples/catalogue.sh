#!/bin/sh
# A pipeline over a catalogue: how many components of a tensor each of the 32 classes leaves, as a table.
#
# usage: examples/catalogue.sh PROGRAM JAHN..      examples/catalogue.sh ./tensors V '[V2]' 'V[V2]' '[[V2]2]'
program=$1
shift
classes="1 -1 2 m 2/m 222 mm2 mmm 4 -4 4/m 422 4mm -42m 4/mmm 3 -3 32 3m -3m 6 -6 6/m 622 6mm -6m2 6/mmm 23 m-3 432 -43m m-3m"
for class in $classes; do
    for jahn in "$@"; do
        echo "form $class $jahn"
    done
done | "$program" | awk '
    # a header is "form G J free N of M"; every other line is a component
    $1 == "form" {
        if ($2 != class) { printf "%s%s", class == "" ? "" : "\n", $2; class = $2 }
        printf "\t%s", $5
    }
    $1 == "error" { print "refused: " $0 > "/dev/stderr"; bad = 1 }
    END { print ""; exit bad }'
