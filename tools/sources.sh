# What the program secv is made from, for ./secv, tools/ and .ci/run, which set `top` to the top of the checkout and read this.

# The crates that the program stands on, lowest first, as crates.txt lists them.
needed() {
  awk -F: '!/^#/ && NF { split($1, head, " "); name[++n] = head[1]; uses[head[1]] = $2 }
    END { want["secv"] = 1
      for (i = n; i >= 1; i--) if (want[name[i]]) { m = split(uses[name[i]], low, " "); for (j = 1; j <= m; j++) want[low[j]] = 1 }
      for (i = 1; i <= n; i++) if (want[name[i]]) print name[i] }' "$top/crates.txt"
}

# The folders that the program is made from, below the top, a line each.
folders() { needed | sed 's|.*|crates/&/src\ncrates/&/specs\ncrates/&/proofs|'; }

# A sum over what the program is made from: the names and bytes of its files, and the crates' lines.
sum_of_sources() {
  (
    cd "$top" || exit
    find $(folders) -type f 2>/dev/null | LC_ALL=C sort | tr '\n' '\0' | xargs -0 sha256sum
    needed | sed 's/.*/^&[ :]/' | grep -f - crates.txt
  ) | sum_of
}

# The SHA-256 of what comes in.
sum_of() { sha256sum | cut -d ' ' -f 1; }

# The line of the kit that is installed here, if one is.
kit_here() { rt version 2>/dev/null | head -n 1; }

# What says of a program by which it can be known again: a sum of its sources, the line of its kit, and a sum of its bytes.
stamp_of() { printf 'sources: %s\nkit: %s\nsha256: %s\n' "$1" "$2" "$(sum_of <"$3")"; }

# What kind of machine this is.
machine_here() { printf '%s %s\n' "$(uname -s)" "$(uname -m)"; }

# The value that a file of lines 'NAME: VALUE' gives a name.
value_in() { sed -n "s/^$2: //p" "$1" 2>/dev/null; }
