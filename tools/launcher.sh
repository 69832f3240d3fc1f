#!/bin/sh
# The launcher of the program of this name: ./tensors, which goes by the name that it is called by.
case $0 in */*) here=${0%/*} ;; *) here=. ;; esac
[ ! -L "$0" ] || here=$(dirname -- "$(readlink -f -- "$0")")
. "$here/tensors"
