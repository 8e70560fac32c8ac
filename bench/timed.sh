# To be read by the scripts here.

# timed COMMAND..: runs it, and tells on standard error how long it took and how much memory.
timed() {
  if command -v /usr/bin/time >/dev/null 2>&1; then
    /usr/bin/time -f '%e seconds, %M KiB at most' "$@"
  else
    time "$@"
  fi
}

# told FILE WORDS..: runs the compiler with the words on a file, timed, and tells the first line and the length of its answer.
told() {
  local file=$1 answer
  shift
  answer=$(mktemp)
  echo "$* on $(basename "$file")"
  timed ./aeth "$@" <"$file" >"$answer" || true
  head -n 1 "$answer"
  wc -c <"$answer" | awk '{ print $1, "bytes" }'
  rm -f -- "$answer"
}

# made NAME: the file of a program of bench/programs.py, in the folder `dir`.
made() {
  python3 -B bench/programs.py "$1" >"$dir/$1"
  echo "$dir/$1"
}
