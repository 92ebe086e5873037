# Takes the labels of a design away, for tools that read none: sed -E -f plain.sed DESIGN
# A label stands on one line with its `input`, `output`, `wire` or `reg`, and a lattice and each map have lines of their own.
/^[[:blank:]]*(lattice|labelmap)[[:blank:]]/{
  :more
  /end(lattice|labelmap)/!{
    N
    b more
  }
  d
}
s/((^|[^[:alnum:]_$])(input|output|wire|reg)([[:blank:]]+(reg|wire|signed))*([[:blank:]]*\[[^]]*\])?)[[:blank:]]*\{[^}]*\}/\1/g
