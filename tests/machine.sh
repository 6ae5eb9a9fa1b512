# What this machine has, and what is built on it. Sourced by scripts that stand in the repository's top.
#
#     need COMMAND PACKAGE     installs a Debian package where the command is missing
#     need_cc, cc_for ..       a C compiler for x86-64, as all is that the toolchain builds; and its call
#     need_own_cc              gcc for this machine's own programs
#     run PROGRAM ..           runs an x86-64 program on any processor, after need_cc
#     need_archive, $archive   the library's archive
#     need_command, $command   the command vanc, which runs on any processor
#     need_lister, $lister     the lister, an x86-64 executable
#     quietly COMMAND ..       shows what a command says only where it fails
#     proving RT-COMMAND ..    shows of what rt says which crate is proved, as it comes; all of it where it fails

archive=target/staticlib/libvanc.a
command=target/bin/vanc
lister=target/bin/lister

no_rt="the Rattle toolchain's command 'rt' is not on this machine; it is the one thing that has to be there"

# How need_archive and need_command run rt: `quietly`, or `proving` for somebody who waits.
prover=quietly

as_root() {
  if [ "$(id -u)" = 0 ]; then "$@"; else sudo "$@"; fi
}

install_package() {
  echo "installing Debian's $1" >&2
  as_root apt-get update -qq >&2
  as_root env DEBIAN_FRONTEND=noninteractive apt-get install -y -qq --no-install-recommends "$1" >/dev/null
}

need() {
  command -v "$1" >/dev/null || install_package "$2"
}

need_own_cc() {
  need gcc gcc
  [ -e /usr/include/stdio.h ] || install_package libc6-dev
}

quietly() {
  local said
  said=$("$@" 2>&1) || {
    printf '%s\n' "$said" >&2
    return 1
  }
}

proving() {
  local said=target/said status=0
  mkdir -p target
  "$@" 2>&1 | tee "$said" |
    awk '/^crate [a-z0-9_]+: / { crate = $2 } /^logic=proved / { sub(":", "", crate); print "rt: " crate " proved"; fflush() }' || status=${PIPESTATUS[0]}
  [ "$status" = 0 ] || cat "$said" >&2
  return "$status"
}

# in_crate CRATE COMMAND ..: in its folder.
in_crate() {
  local crate=$1
  shift
  (cd "crates/$crate" && "$@")
}

# compare_toolchain NAME: the script NAME says it where the toolchain is another than the recorded one.
compare_toolchain() {
  local recorded here
  recorded=$(cat TOOLCHAIN)
  here=$(rt version)
  [ "$here" = "$recorded" ] ||
    echo "$1: this machine has the toolchain '$here', the project was proved with '$recorded'; going on with what is here" >&2
}

# behind CRATE ..: these crates of crates.txt and all that they depend on, each after what it depends on. A line is 'NAME: DEP ..' or
# 'NAME staticlib: DEP ..'.
behind() {
  awk -v wanted="$*" '
    function visit(crate, n, i, names) {
      if (!(crate in needs) || crate in seen) return
      seen[crate]
      n = split(needs[crate], names, " ")
      for (i = 1; i <= n; i++) visit(names[i])
      print crate
    }
    { sub(/#.*/, "") }
    /:/ { at = index($0, ":"); split(substr($0, 1, at - 1), head, " "); needs[head[1]] = substr($0, at + 1) }
    END { n = split(wanted, names, " "); for (i = 1; i <= n; i++) visit(names[i]) }
  ' crates.txt
}

# lines_of CRATE ..: their lines of crates.txt.
lines_of() {
  printf '^%s[ :]\n' "$@" | grep -f - crates.txt
}

# files_of CRATE ..: all files that these crates are proved and built of: neither what rt keeps in out/, nor the edits that must be refused.
files_of() {
  find "${@/#/crates/}" \( -name out -o -name must-fail \) -prune -o -type f -print0
}

# made_of CRATE: one line for the toolchain and all files that CRATE is proved and built of.
made_of() {
  local crates
  mapfile -t crates < <(behind "$1")
  {
    rt version
    lines_of "${crates[@]}"
    files_of "${crates[@]}" | xargs -0 sha256sum | LC_ALL=C sort
  } | sha256sum
}

# is_made FILE CRATE: FILE is there, and made of CRATE as it is.
is_made() {
  [ -e "$1" ] && [ "$(cat "$1.of" 2>/dev/null)" = "$(made_of "$2")" ]
}

# unless_made FILE CRATE MAKER ..: runs MAKER where FILE is not made of CRATE as it is, since rt checks a crate each time that it builds it.
unless_made() {
  local file=$1 crate=$2 of
  shift 2
  ! is_made "$file" "$crate" || return 0
  # Before it is made: a change while it is made is then seen next time.
  of=$(made_of "$crate") || return
  rm -f "$file.of"
  "$@" || return
  echo "$of" >"$file.of"
}

# put_program CRATE FILE: copies the program that rt has linked. A file that runs is replaced, not written into.
put_program() {
  mkdir -p "$(dirname "$2")"
  rm -f "$2"
  cp "crates/$1/out/$1" "$2"
}

# link_program CRATE FILE ARGUMENT ..: proves the crate and what it rests on, and links it. rt has no way to that but to run the program too; on a
# processor that is not x86-64 that may fail, and then what counts is that it was linked.
link_program() {
  local crate=$1 file=$2
  shift 2
  rm -f "crates/$crate/out/$crate"
  "$prover" in_crate "$crate" rt run -- "$@" </dev/null || [ "$(uname -m)" != x86_64 ] || return
  put_program "$crate" "$file"
}

# take_program CRATE FILE OF: after rt ci, which has proved and linked the program too; OF is what made_of said before it.
take_program() {
  put_program "$1" "$2" || return
  echo "$3" >"$2.of"
}

# link_command FILE: the x86-64 executable of the command.
link_command() {
  link_program command "$1" --version
}

link_lister() {
  link_program lister "$1"
}

# emulated EXECUTABLE: the script that runs it, from the script's own folder, on a processor that is not x86-64.
emulated() {
  cat <<END
#!/bin/sh
# The command vanc is an x86-64 executable: this runs it on another processor.
exec qemu-x86_64 -L /usr/x86_64-linux-gnu "\$(dirname "\$(readlink -f "\$0")")/$1" "\$@"
END
}

# link_archive FILE: proves the C names and what they rest on, and makes the library's archive. The toolchain names it after its crate.
link_archive() {
  "$prover" in_crate c_names rt lib || return
  mkdir -p "$(dirname "$1")"
  cp crates/c_names/out/libc_names.a "$1"
}

need_archive() {
  unless_made "$archive" c_names link_archive "$archive"
}

need_lister() {
  unless_made "$lister" lister link_lister "$lister"
}

if [ "$(uname -m)" = x86_64 ]; then
  executable=$command
  run() { "$@"; }
  need_cc() { need_own_cc; }
  cc_for() { gcc "$@"; }
  need_command() { unless_made "$executable" command link_command "$executable"; }
else
  executable=target/x86-64/vanc
  run() { qemu-x86_64 -L /usr/x86_64-linux-gnu "$@"; }
  need_emulator() {
    need qemu-x86_64 qemu-user
    [ -e /usr/x86_64-linux-gnu/lib/ld-linux-x86-64.so.2 ] || install_package libc6-amd64-cross
  }
  need_cc() {
    need_emulator
    need x86_64-linux-gnu-gcc gcc-x86-64-linux-gnu
    [ -e /usr/x86_64-linux-gnu/include/stdio.h ] || install_package libc6-dev-amd64-cross
  }
  cc_for() { x86_64-linux-gnu-gcc "$@"; }
  need_command() {
    need_emulator
    unless_made "$executable" command link_command "$executable" || return
    mkdir -p "$(dirname "$command")"
    emulated ../x86-64/vanc >"$command"
    chmod 755 "$command"
  }
fi
