# packages.bash: Debian's packages without installing them, for the scripts that source this. They are kept in the user's
# cache directory and used again. The script that sources it has two functions of its own:
#   fail REASON..       ends the script
#   missing_packages    names the packages that the cache does not hold yet, a line each
# and may set `versions` to say which versions it asks for.

cache=${XDG_CACHE_HOME:-$HOME/.cache}/grassglisten/packages
versions=

# apt-get with its own cache (and, once `own_lists` has run, its own package lists), so that the system stays as it is.
private_apt() {
  apt-get -qq -o "Dir::Cache=$scratch/cache" -o APT::Sandbox::User=root "${lists[@]}" "$@"
}

own_lists() {
  mkdir -p "$scratch/state/lists/partial"
  lists=(-o "Dir::State=$scratch/state")
  private_apt update
}

# Only whole packages reach the cache, those of a download that broke off too.
keep_whole_packages() {
  local package
  for package in "$scratch"/new/*.deb; do
    ! dpkg-deb --fsys-tarfile "$package" >/dev/null || mv "$package" "$cache/"
  done
}

download_missing() {
  local packages
  mapfile -t packages < <(missing_packages)
  (cd "$scratch/new" && private_apt download "${packages[@]}") || true
  keep_whole_packages
  [ -z "$(missing_packages)" ]
}

try_three_times() {
  local attempt
  for attempt in 1 2 3; do
    "$@" >"$scratch/log" 2>&1 && return
    [ "$attempt" = 3 ] || sleep $((2 * attempt))
  done
  return 1
}

# The system's package lists may be missing or old: then they are fetched, for this run only.
fetch() {
  try_three_times download_missing && return
  try_three_times own_lists || fail "the package lists cannot be had: $(tail -n 1 "$scratch/log")"
  try_three_times download_missing && return
  tail -n 3 "$scratch/log" >&2
  fail "not to be had${versions:+ $versions}: $(missing_packages | tr '\n' ' ')"
}

fetch_missing() {
  [ -n "$(missing_packages)" ] || return 0
  command -v apt-get >/dev/null || fail "no apt-get here, and the packages are not all in $cache"
  scratch=$(mktemp -d "$cache/fetch.XXXXXX")
  trap 'rm -rf "$scratch"' EXIT
  mkdir -p "$scratch/new" "$scratch/cache/archives/partial"
  lists=()
  fetch
}
