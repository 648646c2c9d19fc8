# For bench/run and bench/beside, `. bench/archives.sh COMMIT`: proves and builds the archive, and that of COMMIT, whose calls are named
# before_build, before_plan, before_run and, if it has that, before_whether; it is made once for each commit. Compiles what measure is linked
# of beside the two.

warnings='-std=c99 -Wall -Wextra -Wpedantic -Wconversion -Wshadow -Wstrict-prototypes -Wmissing-prototypes -Werror'
out=target/bench
archive=target/staticlib/libclosing.a
commit=$(git rev-parse --verify --quiet --short=7 "$1^{commit}") || { echo "no such commit: $1" >&2; exit 2; }
before=$out/before-$commit.a
mkdir -p "$out"

echo 'proving and building the archive ...'
tools/build archive

if [ ! -f "$before" ]; then
  echo "proving and building the archive of $commit ..."
  rm -rf "$out/before" && git clone -q --no-checkout . "$out/before" && git -C "$out/before" checkout -q "$commit"
  (cd "$out/before" && tools/build archive)
  objcopy --redefine-sym closing_build=before_build --redefine-sym closing_plan=before_plan --redefine-sym closing_run=before_run \
    --redefine-sym closing_whether=before_whether "$out/before/target/staticlib/libclosing.a" "$before"
fi

# loops aligned, since where a short loop happens to lie moves its time by half
objects=
for way in search best; do
  gcc $warnings -O3 -falign-loops=32 -DWAY=${way^^} -DPREFIX=$way -c -o "$out/$way.o" bench/plain.c -I include -I bench
  objects="$objects $out/$way.o"
done
for part in measure shops peer; do
  gcc $warnings -O2 -I include -I bench -I tests/c -c -o "$out/$part.o" bench/$part.c
  objects="$objects $out/$part.o"
done

# layouts MODE: the lines of `measure MODE`, eight times. Where a short loop happens to lie moves a call by a tenth and more, in one archive and
# not in the other; so the two are linked at each offset of sixteen bytes in a cache line and in both orders, and of the times of a call the
# least is to be taken: noise does not make it less.
layouts() {
  for offset in 16 32 48 64; do
    echo "__asm__(\".text; .skip $offset\");" | gcc -x c -c -o "$out/offset.o" -
    for archives in "$before $archive" "$archive $before"; do
      gcc -o "$out/measure_laid" $objects "$out/offset.o" $archives -lsqlite3
      "$out/measure_laid" "$1"
    done
  done
}
