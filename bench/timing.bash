# How long programs take, for the scripts beside this file, which source it. `work` is the script's own folder for what is printed.

# How long a program takes over an input, in microseconds. What it prints goes to the first file.
once() {
  local output=$1 input=$2 begin end
  shift 2
  begin=$(date +%s%N)
  "$@" <"$input" >"$output"
  end=$(date +%s%N)
  echo $(((end - begin) / 1000))
}

# The least of some rounds over an input, in microseconds.
least() {
  local rounds=$1 input=$2 best= took
  shift 2
  for _ in $(seq "$rounds"); do
    took=$(once "$work/output" "$input" "$@")
    if [ -z "$best" ] || [ "$took" -lt "$best" ]; then best=$took; fi
  done
  echo "$best"
}
