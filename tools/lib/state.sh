# Which files .ci/run tries, from the top of the repository on.
# shellcheck shell=bash

# The commit, and whether the files are those of it.
commit() {
  local state=clean
  [ -z "$(git status --porcelain 2>&1)" ] || state="with changes"
  echo "commit $(git rev-parse HEAD 2>/dev/null || echo none), $state"
}

# A hash of what differs from the commit: each change of a file that it has, and the files that it lacks, except those that git ignores.
changes() {
  {
    git diff --binary --no-ext-diff HEAD
    git ls-files -z --others --exclude-standard | sort -z | xargs -0r sha256sum
  } 2>&1 | sha256sum
}
